//! Names, rules and tables of rules.

use super::identifier::relative;
use crate::random::Random;

/// Few labels, so that hosts meet rules often.
const LABELS: [&str; 9] = ["a", "b", "c", "ck", "a", "b", "c", "a-1", "10"];

/// Lines that make a table bad.
pub const BAD_LINES: [&[u8]; 20] = [
    b"*a", b"a.*", b"a.*.b", b"*.", b"*.*", b"**", b"!a", b"!", b"!*.ck", b"!!a.b", b".a", b"a.", b"a..b",
    b"-a", b"a-.b", b"a\0", b"\xef\xbb\xbfa", b"\xc3\xbc.c", b"a//", b"/",
];

/// Bytes that damage a host or a table, or change its meaning.
const DAMAGE: &[u8] = b"..-*!/ \t\r\n\0_:aAzZ@[`{09\x7f\x80\xc3\xff\x0b\x0c";

/// Labels joined by dots: a host, unless it came out too long.
pub fn labels(random: &mut Random, least: usize, most: usize) -> Vec<u8> {
    let count = least + random.below(most - least + 1);
    let mut labels: Vec<Vec<u8>> = (0..count).map(|_| random.pick(&LABELS).into()).collect();
    if random.chance(4) {
        // Labels around the bound of 63; four of them are around the bound of 253.
        let some = random.below(labels.len() + 1);
        for label in &mut labels[some..] {
            *label = vec![b'a' + (label[0] & 1); 61 + random.below(4)];
        }
    }
    let mut name = labels.join(&b'.');
    if random.chance(20) {
        random.mix_case(&mut name);
    }
    name
}

pub fn rule(random: &mut Random) -> Vec<u8> {
    match random.below(10) {
        0..=3 => labels(random, 1, 3),
        4..=5 => [b"*.".to_vec(), labels(random, 1, 4)].concat(),
        6..=8 => [b"!".to_vec(), labels(random, 2, 4)].concat(),
        _ => b"*".to_vec(),
    }
}

/// A line that makes no table bad.
pub fn line(random: &mut Random) -> Vec<u8> {
    let rule = rule(random);
    line_of(random, rule)
}

/// A line with this rule: mostly the rule alone; else with bytes behind it, in a comment, behind a blank, or empty.
pub fn line_of(random: &mut Random, rule: Vec<u8>) -> Vec<u8> {
    match random.below(12) {
        0 => [random.pick(&[&b"// "[..], b"//", b"//\xc3\xbc\0", b"//\x0b\x1f"]), &rule].concat(),
        1 => [random.pick(&[&b" "[..], b"\t", b"\r"]), &rule].concat(),
        2 => [&rule[..], random.pick(&[&b" x"[..], b"\t!", b"\r", b"  ", b" //", b"\t\xff"])].concat(),
        3 => Vec::new(),
        _ => rule,
    }
}

/// Changes or adds one byte, or cuts the rest off.
pub fn damage(random: &mut Random, bytes: &mut Vec<u8>) {
    damage_by(random, bytes, DAMAGE);
}

/// Changes or adds one byte, it being one of these, or cuts the rest off.
pub fn damage_by(random: &mut Random, bytes: &mut Vec<u8>, among: &[u8]) {
    let at = random.below(bytes.len() + 1);
    let byte = among[random.below(among.len())];
    match random.below(3) {
        0 => bytes.insert(at, byte),
        1 if at < bytes.len() => bytes[at] = byte,
        _ => bytes.truncate(at),
    }
}

/// A table of these lines.
pub fn join(random: &mut Random, lines: &[Vec<u8>]) -> Vec<u8> {
    let end: &[u8] = random.pick(&[&b"\n"[..], b"\n", b"\r\n"]);
    let mut table = lines.join(end);
    if random.chance(50) {
        table.extend(end);
    }
    if random.chance(10) {
        damage(random, &mut table);
    }
    table
}

/// A table of up to six lines, none of them bad.
pub fn table(random: &mut Random) -> Vec<u8> {
    let lines: Vec<Vec<u8>> = (0..random.below(7)).map(|_| line(random)).collect();
    lines.join(&b'\n')
}

/// A table of which some rules are about hosts near this one, so that rules go deeper than its private label.
pub fn table_near(random: &mut Random, host: &str) -> Vec<u8> {
    let mut lines = vec![table(random)];
    for _ in 0..random.below(4) {
        let near = relative(random, host);
        let near = if random.chance(50) { relative(random, &near) } else { near };
        // A name that is too long, or no host, would make the table bad.
        if near.len() < 100 && near.split('.').all(|label| label.len() < 64) {
            let mark = if near.contains('.') { random.pick(&["", "", "*.", "!"]) } else { "" };
            lines.push(format!("{mark}{near}").into_bytes());
        }
    }
    let first = random.below(lines.len());
    lines.rotate_left(first);
    lines.join(&b'\n')
}

/// A table with a bad line; seldom one that is only too long.
pub fn bad_table(random: &mut Random) -> Vec<u8> {
    let mut table = table(random);
    if random.chance(1) {
        table.resize(1_048_577, b'\n');
        return table;
    }
    let ends: Vec<usize> = (0..table.len()).filter(|&at| table[at] == b'\n').collect();
    let bad = random.pick(&BAD_LINES);
    match ends.len() {
        0 => [bad, b"\n", &table].concat(),
        some => {
            let (before, after) = table.split_at(ends[random.below(some)]);
            [before, b"\n", bad, after].concat()
        }
    }
}
