//! Response heads that are bad, each by one fault.

use super::{
    head::{self, answer, ended, field, finished, lengthen, location, other, Lines},
    table::damage_by,
};
use crate::random::Random;

/// Makes a head that has one fault.
type Spoil = fn(&mut Random) -> Vec<u8>;

/// The faults, each of which makes a head bad.
pub const FAULTS: [(&str, Spoil); 26] = [
    ("version", |random| {
        let version = random.pick(&[
            "http/1.1", "Http/1.1", "HTTp/1.1", "HTTP/11", "HTTP/1.", "HTTP/.1", "HTTP/1.10", "HTTP/10.1",
            "HTTP/1", "HTTP/a.1", "HTTP/1,1", "HTTP 1.1", "HTTP/1.1 ", "HTTP/1.1\t", "HTTPS/1.1",
            "HTTP/-1.1", "GET", "",
        ]);
        with_status_line(random, |_, line| drop(line.splice(..8, version.bytes())))
    }),
    ("status", |random| {
        let status = random.pick(&[
            "", "2", "20", "2000", "0200", "20x", "x00", "+20", "-20", "2 0", " 200", "0x1", "\u{fc}0",
        ]);
        with_status_line(random, |_, line| drop(line.splice(9..12, status.bytes())))
    }),
    ("status alone", |random| with_status_line(random, |_, line| line.truncate(12))),
    ("no second blank", |random| {
        let behind = random.pick(&["\tOK", "OK", "\t", "-", ": OK", "\u{a0}OK"]);
        with_status_line(random, |_, line| drop(line.splice(12.., behind.bytes())))
    }),
    ("byte in the reason", |random| {
        with_status_line(random, |random, line| {
            let at = 13 + random.below(line.len() - 12);
            line.insert(at, no_content(random));
        })
    }),
    ("empty lines before", |random| {
        let before = random.pick(&["\r\n", "\r\n", "\r\n\r\n", "\n", "\n\r\n"]);
        [before.as_bytes(), &good(random)].concat()
    }),
    ("bytes before", |random| {
        let before =
            random.pick(&[" ", "\t", "\r", "\0", "x", "\u{feff}", "A: b\r\n", "HTTP/1.1 100 \r\n\r\n"]);
        [before.as_bytes(), &good(random)].concat()
    }),
    ("no status line", |random| ended(&good_lines(random)[1..], b"\r\n")),
    ("folded line", |random| {
        with_line(random, &[" folded", "\tfolded", " ", "\t", "  a: b", " true", "\t;"])
    }),
    ("empty name", |random| with_line(random, &[":", ": ", ":a", ": a: b", "::"])),
    ("no colon", |random| {
        with_line(
            random,
            &["a", "Location", "FIDO-AppID-Redirect-Authorized", "true", "a;b", "HTTP/1.1", "\u{80}"],
        )
    }),
    ("blank before the colon", |random| {
        let blank = random.pick(&[" ", "\t", "  ", " \t"]);
        with_field(random, |_, line, colon| drop(line.splice(colon..colon, blank.bytes())))
    }),
    ("byte in a name", |random| {
        with_field(random, |random, line, colon| {
            let bytes = b"\0\x1f \t\"(),/;<=>?@[\\]{}\x7f\x80\xff";
            line.insert(random.below(colon + 1), bytes[random.below(bytes.len())]);
        })
    }),
    ("byte in a value", |random| {
        with_field(random, |random, line, colon| {
            let at = colon + 1 + random.below(line.len() - colon);
            line.insert(at, no_content(random));
        })
    }),
    ("CR in a line", |random| with_break(random, b'\r')),
    ("LF in a line", |random| with_break(random, b'\n')),
    ("line ends in CR", |random| with_ends(random, &[b"\r"])),
    ("line ends in LF", |random| with_ends(random, &[b"\n"])),
    ("line ends otherwise", |random| with_ends(random, &[b"\r\r\n", b"\n\r", b"\r\n\r\n", b"\n\n", b"\r\r"])),
    ("cut short", |random| {
        let head = good(random);
        let cut = if random.chance(50) { 1 + random.below(4) } else { 1 + random.below(head.len()) };
        head[..head.len() - cut].to_vec()
    }),
    ("no empty line", |random| {
        let head = good(random);
        head[..head.len() - 2].to_vec()
    }),
    ("bytes behind", |random| {
        let behind =
            random.pick(&["\r\n", "\n", "\r", " ", "x", "\0", "{\"trustedFacets\":[]}", "a: b\r\n\r\n"]);
        [&good(random), behind.as_bytes()].concat()
    }),
    ("too long", |random| {
        let mut lines = good_lines(random);
        let length = 8193 + random.below(3) + random.below(2) * random.below(9000);
        lengthen(random, &mut lines, length);
        ended(&lines, b"\r\n")
    }),
    ("no Location", |random| {
        let mut lines = redirect(random);
        lines.retain(|line| !is_location(line));
        finished(random, lines)
    }),
    ("more Locations", |random| {
        let mut lines = redirect(random);
        let one = the_location(&lines);
        for _ in 0..1 + random.below(2) {
            let location = location(random);
            let more = if random.chance(40) { one.clone() } else { field(random, "Location", &location) };
            lines.insert(1 + random.below(lines.len()), more);
        }
        finished(random, lines)
    }),
    ("Location in another case too", |random| {
        let mut lines = redirect(random);
        let mut more = the_location(&lines);
        let letter = random.below("Location".len());
        more[letter] ^= 0x20;
        lines.insert(1 + random.below(lines.len()), more);
        finished(random, lines)
    }),
];

fn is_location(line: &[u8]) -> bool {
    line.len() > 8 && line[..9].eq_ignore_ascii_case(b"Location:")
}

/// The Location line of a redirect.
fn the_location(lines: &[Vec<u8>]) -> Vec<u8> {
    lines.iter().find(|line| is_location(line)).expect("a Location").clone()
}

/// A redirect's lines.
fn redirect(random: &mut Random) -> Lines {
    let authorized = random.chance(50);
    let says = head::redirect(random, authorized);
    head::lines(random, &says)
}

/// The lines of a good head.
fn good_lines(random: &mut Random) -> Lines {
    if random.chance(50) {
        return redirect(random);
    }
    let right = random.chance(50);
    let says = answer(random, right);
    head::lines(random, &says)
}

fn good(random: &mut Random) -> Vec<u8> {
    let lines = good_lines(random);
    finished(random, lines)
}

/// A byte that no value and no reason holds, CR and LF aside.
fn no_content(random: &mut Random) -> u8 {
    let bytes = b"\0\x01\x08\x0b\x0c\x0e\x1f\x7f";
    bytes[random.below(bytes.len())]
}

/// A head whose status line is changed.
fn with_status_line(random: &mut Random, change: impl Fn(&mut Random, &mut Vec<u8>)) -> Vec<u8> {
    let mut lines = good_lines(random);
    change(random, &mut lines[0]);
    ended(&lines, b"\r\n")
}

/// A head of which a field line, in which the colon stands there, is changed.
fn with_field(random: &mut Random, change: impl Fn(&mut Random, &mut Vec<u8>, usize)) -> Vec<u8> {
    let mut lines = good_lines(random);
    lines.push(other(random));
    let at = 1 + random.below(lines.len() - 1);
    let colon = lines[at].iter().position(|&byte| byte == b':').expect("a colon");
    change(random, &mut lines[at], colon);
    ended(&lines, b"\r\n")
}

/// A head with one of these among its field lines.
fn with_line(random: &mut Random, among: &[&str]) -> Vec<u8> {
    let (mut lines, line) = (good_lines(random), random.pick(among));
    lines.insert(1 + random.below(lines.len()), line.into());
    ended(&lines, b"\r\n")
}

/// A head with this byte in one of its lines, the last place aside.
fn with_break(random: &mut Random, byte: u8) -> Vec<u8> {
    let mut lines = good_lines(random);
    let at = random.below(lines.len());
    let place = random.below(lines[at].len());
    lines[at].insert(place, byte);
    ended(&lines, b"\r\n")
}

/// A head of which one line, the empty one among them, or every line has one of these ends.
fn with_ends(random: &mut Random, among: &[&[u8]]) -> Vec<u8> {
    let (mut lines, end) = (good_lines(random), random.pick(among));
    if random.chance(20) {
        return ended(&lines, end);
    }
    lines.push(Vec::new());
    let other = random.below(lines.len());
    let end_of = |at: usize| if at == other { end } else { b"\r\n" };
    lines.iter().enumerate().flat_map(|(at, line)| [line, end_of(at)].concat()).collect()
}

/// Bytes that damage a head, or change its meaning.
const DAMAGE: &[u8] =
    b"\r\n\r\n  \t\t::;;,,\"\"()/.=<>?@[]\\{}'!#*+-_`|~0139aAtTxX\0\x0b\x0c\x1f\x7f\x80\xa0\xff";

/// A good head with a byte changed or added or its end cut off, now and then more than once.
pub fn damaged(random: &mut Random) -> Vec<u8> {
    let mut head = good(random);
    damage_by(random, &mut head, DAMAGE);
    while random.chance(30) {
        damage_by(random, &mut head, DAMAGE);
    }
    head
}
