//! Response heads, and outputs to read them into, each made for one outcome.

use super::{
    bad_head::{damaged, FAULTS},
    identifier::{bad_url, foreign, host, url},
};
use crate::{
    model::{
        head::{self as model, Head},
        record::{Answer, Redirect},
    },
    random::Random,
};

/// What reading a head comes to: a redirect with the authorized header seen or not, an answer with the right content
/// type seen or not, refusal 16, or refusal 15 by an output or by a redirect's start.
#[derive(Clone, Copy, Debug, PartialEq, Eq, PartialOrd, Ord)]
pub enum Outcome {
    Authorized,
    NotAuthorized,
    RightType,
    OtherType,
    BadHead,
    ShortItem,
    ShortText,
    FarStart,
}

pub const OUTCOMES: [Outcome; 8] = {
    use Outcome::{Authorized, BadHead, FarStart, NotAuthorized, OtherType, RightType, ShortItem, ShortText};
    [Authorized, NotAuthorized, RightType, OtherType, BadHead, ShortItem, ShortText, FarStart]
};

/// A head, the text's start that is given with it, and the outputs before the call.
pub struct Made {
    pub head: Vec<u8>,
    pub start: u32,
    pub item: Vec<u8>,
    pub text: Vec<u8>,
    pub known: Known,
}

/// What is known of a head by how it was made.
pub enum Known {
    /// It says this, and this is what reading it comes to; refusal 15 may have other causes too.
    Says(Head, Outcome),
    /// It is a bad one by this fault.
    Bad(&'static str),
    /// Nothing is known.
    Damaged,
}

/// A head and outputs for any outcome, one in three a bad head; one in twenty is damaged.
pub fn any(random: &mut Random) -> Made {
    let outcome = if random.chance(33) { Outcome::BadHead } else { OUTCOMES[random.below(OUTCOMES.len())] };
    if random.chance(95) {
        return made(random, outcome);
    }
    let head = damaged(random);
    let says = model::read(&head);
    with_outputs(random, head, says.as_ref(), outcome, Known::Damaged)
}

/// A head and outputs for this outcome.
fn made(random: &mut Random, outcome: Outcome) -> Made {
    if outcome == Outcome::BadHead {
        let (fault, spoil) = FAULTS[random.below(FAULTS.len())];
        let head = spoil(random);
        return with_outputs(random, head, None, outcome, Known::Bad(fault));
    }
    let says = to_say(random, outcome);
    let head = head(random, &says);
    with_outputs(random, head, Some(&says), outcome, Known::Says(says.clone(), outcome))
}

/// What a head for this outcome is to say.
fn to_say(random: &mut Random, outcome: Outcome) -> Head {
    let any = random.chance(50);
    match outcome {
        Outcome::Authorized => redirect(random, true),
        Outcome::NotAuthorized => redirect(random, false),
        Outcome::RightType => answer(random, true),
        Outcome::OtherType => answer(random, false),
        Outcome::ShortItem if random.chance(50) => answer(random, any),
        // No output is short of an empty Location.
        Outcome::ShortText => {
            let mut location = location(random);
            if location.is_empty() {
                location.push(b'u');
            }
            redirect_to(random, any, location)
        }
        Outcome::ShortItem | Outcome::FarStart => redirect(random, any),
        Outcome::BadHead => unreachable!("a bad head says nothing"),
    }
}

/// What a redirect may say.
pub fn redirect(random: &mut Random, header_seen: bool) -> Head {
    let location = location(random);
    redirect_to(random, header_seen, location)
}

/// What a redirect to this Location may say.
pub fn redirect_to(random: &mut Random, header_seen: bool, location: Vec<u8>) -> Head {
    let status = [300, 300, 301, 302, 303, 304, 305, 307, 308, 350, 399, 399][random.below(12)];
    Head::Redirect(Redirect { status, header_seen, location })
}

/// What an answer may say.
pub fn answer(random: &mut Random, type_seen: bool) -> Head {
    let status = match random.below(3) {
        0 => 200,
        1 => [0, 99, 100, 199, 201, 204, 298, 299][random.below(8)],
        _ => [400, 401, 404, 410, 500, 503, 600, 999][random.below(8)],
    };
    Head::Answer(Answer { status, type_seen })
}

// ---- heads

const VERSIONS: [&str; 4] = ["1.1", "1.1", "1.1", "1.0"];

const OTHER_VERSIONS: [&str; 6] = ["0.9", "9.9", "2.0", "0.0", "1.2", "3.1"];

const REASONS: [&[u8]; 12] = [
    b"", b"", b"OK", b"Found", b"Moved Permanently", b" ", b"\t", b"no: reason", b"\xc3\x9c\xff\x80", b"~!",
    b"OK ", b"200 HTTP/1.1",
];

/// Names of lines that mean nothing, now and then much like one that does.
const OTHER_NAMES: [&str; 20] = [
    "Date", "Server", "Set-Cookie", "ETag", "Cache-Control", "Content-Length", "Vary", "X",
    "!#$%&'*+-.^_`|~", "Locations", "Locatio", "X-Location", "Location-", "Content-Location", "Content-Typ",
    "Content-Types", "ContentType", "FIDO-AppID-Redirect-Authorize", "FIDO-AppID-Redirect-Authorized2",
    "FIDO-AppID",
];

const OTHER_VALUES: [&[u8]; 12] = [
    b"", b"", b"true", b"https://a.b/", b"application/fido.trusted-apps+json", b"0", b"a=b; c=\"d\", e",
    b"Tue, 15 Nov 1994 08:12:31 GMT", b"::", b"a\tb c", b"\x80\xff\xc3\xbc", b"Location: https://a.b/",
];

/// Values of the authorized header that do not count.
const WRONG_HEADERS: [&[u8]; 17] = [
    b"", b"", b"", b"", b"", b"false", b"True", b"TRUE", b"tru", b"truee", b"1", b"\"true\"", b"true;",
    b"true, true", b"t rue", b"true\xa0", b"yes",
];

const RIGHT_TYPES: [&[u8]; 7] = [
    b"application/fido.trusted-apps+json",
    b"Application/FIDO.Trusted-Apps+JSON",
    b"application/fido.trusted-apps+json;",
    b"application/fido.trusted-apps+json;charset=utf-8",
    b"application/fido.trusted-apps+json ; charset=utf-8; x",
    b"application/fido.trusted-apps+json\t \t;;",
    b"APPLICATION/FIDO.TRUSTED-APPS+JSON;\x80",
];

const WRONG_TYPES: [&[u8]; 13] = [
    b"",
    b";",
    b"true",
    b"application/json",
    b"text/html; charset=utf-8",
    b";application/fido.trusted-apps+json",
    b"application/fido.trusted-apps+jso",
    b"application/fido.trusted-apps+jsonx",
    b"application/fido.trusted-apps+json,",
    b"application/fido.trusted-apps+json x;",
    b"application /fido.trusted-apps+json",
    b"\"application/fido.trusted-apps+json\"",
    b"application/fido.trusted-apps+json\xa0;",
];

/// The lines of a head without their ends, the status line first; the empty line is not among them.
pub type Lines = Vec<Vec<u8>>;

/// The head of these lines, each with this end.
pub fn ended(lines: &[Vec<u8>], end: &[u8]) -> Vec<u8> {
    lines.iter().flat_map(|line| [line, end].concat()).chain(end.to_vec()).collect()
}

/// A head that says this.
pub fn head(random: &mut Random, says: &Head) -> Vec<u8> {
    let lines = lines(random, says);
    finished(random, lines)
}

/// The head of these lines, now and then just as long as a head may be.
pub fn finished(random: &mut Random, mut lines: Lines) -> Vec<u8> {
    if random.chance(2) {
        let length = 8190 + random.below(3);
        lengthen(random, &mut lines, length);
    }
    ended(&lines, b"\r\n")
}

/// Adds to some line, or adds a line, until the head has this length.
pub fn lengthen(random: &mut Random, lines: &mut Lines, length: usize) {
    let missing = length.saturating_sub(ended(lines, b"\r\n").len());
    if random.chance(50) {
        // Behind a value or a reason.
        let at = random.below(lines.len());
        let blanks = lines[at].len() + missing;
        lines[at].resize(blanks, b' ');
        return;
    }
    // A line has at least a name of one byte, a colon and its end.
    let more = missing.saturating_sub(4);
    let name = random.below(more + 1);
    let line = ["n".repeat(1 + name), ":".to_owned(), "v".repeat(more - name)].concat();
    lines.insert(1 + random.below(lines.len()), line.into_bytes());
}

/// The lines of a head that says this.
pub fn lines(random: &mut Random, says: &Head) -> Lines {
    match says {
        Head::Redirect(redirect) => redirect_lines(random, redirect),
        Head::Answer(answer) => answer_lines(random, answer),
    }
}

/// The lines of a redirect.
fn redirect_lines(random: &mut Random, redirect: &Redirect) -> Lines {
    let mut fields = vec![field(random, "Location", &redirect.location)];
    let seen = headers(random, redirect.header_seen);
    add(random, &mut fields, "FIDO-AppID-Redirect-Authorized", seen);
    if random.chance(40) {
        let right = random.chance(50);
        let types = types(random, right);
        add(random, &mut fields, "Content-Type", types);
    }
    with_others(random, redirect.status, fields)
}

/// The lines of an answer.
fn answer_lines(random: &mut Random, answer: &Answer) -> Lines {
    let mut fields = Vec::new();
    let types = types(random, answer.type_seen);
    add(random, &mut fields, "Content-Type", types);
    // They mean nothing here.
    if random.chance(40) {
        let locations = (0..random.below(4)).map(|_| location(random)).collect();
        add(random, &mut fields, "Location", locations);
        let authorized = random.chance(50);
        let seen = headers(random, authorized);
        add(random, &mut fields, "FIDO-AppID-Redirect-Authorized", seen);
    }
    with_others(random, answer.status, fields)
}

/// Adds field lines of one name, in their order, between the others.
fn add(random: &mut Random, fields: &mut Lines, name: &str, values: Vec<Vec<u8>>) {
    let mut at = 0;
    for value in values {
        at += random.below(fields.len() + 1 - at);
        fields.insert(at, field(random, name, &value));
        at += 1;
    }
}

/// A status line and these field lines, others between them.
fn with_others(random: &mut Random, status: u16, mut fields: Lines) -> Lines {
    let many = [1, 4, 4, 4, 4, 4, 4, 4, 4, 20][random.below(10)];
    for _ in 0..random.below(many) {
        let other = other(random);
        fields.insert(random.below(fields.len() + 1), other);
    }
    let versions = if random.chance(25) { &OTHER_VERSIONS[..] } else { &VERSIONS };
    let version = random.pick(versions);
    let reason = random.pick(&REASONS);
    let line = [format!("HTTP/{version} {status:03} ").as_bytes(), reason].concat();
    [vec![line], fields].concat()
}

/// A field line: the name in any case, blanks around the value or none.
pub fn field(random: &mut Random, name: &str, value: &[u8]) -> Vec<u8> {
    let mut name = name.as_bytes().to_vec();
    match random.below(4) {
        0 => name.make_ascii_lowercase(),
        1 => name.make_ascii_uppercase(),
        2 => random.mix_case(&mut name),
        _ => {}
    }
    let mut blanks = || random.pick(&["", "", " ", " ", "\t", "  ", " \t ", "\t\t"]).as_bytes();
    let (before, after) = (blanks(), blanks());
    [&name, &b":"[..], before, value, after].concat()
}

/// A field line that means nothing.
pub fn other(random: &mut Random) -> Vec<u8> {
    let (name, value) = (random.pick(&OTHER_NAMES), random.pick(&OTHER_VALUES));
    field(random, name, value)
}

/// A value that has no blanks around it.
pub fn location(random: &mut Random) -> Vec<u8> {
    let host = host(random);
    match random.below(12) {
        0 => Vec::new(),
        1 => value(&foreign(random, &host)),
        2 => value(&bad_url(random, &host)),
        3 => random.pick(&[&b"/"[..], b"a b\tc", b"\x80", b"\xff:\xff", b":", b"true"]).to_vec(),
        4 => vec![b'u'; [254, 255, 256, 257, 2048, 2049][random.below(6)]],
        _ => url(random, &host).into_bytes(),
    }
}

/// What of a text a value holds.
fn value(text: &str) -> Vec<u8> {
    let visible = text.bytes().filter(|byte| !byte.is_ascii_control());
    visible.collect::<Vec<u8>>().trim_ascii().to_vec()
}

/// The values of the authorized lines, of which the first counts.
fn headers(random: &mut Random, authorized: bool) -> Vec<Vec<u8>> {
    first(random, authorized, &[b"true"], &WRONG_HEADERS)
}

/// The values of the content type lines, of which the first counts.
fn types(random: &mut Random, right: bool) -> Vec<Vec<u8>> {
    first(random, right, &RIGHT_TYPES, &WRONG_TYPES)
}

/// Values, the first of them right or not; without a right one there may be none at all.
fn first(random: &mut Random, is_right: bool, right: &[&[u8]], wrong: &[&[u8]]) -> Vec<Vec<u8>> {
    if !is_right && random.chance(30) {
        return Vec::new();
    }
    let mut values = vec![random.pick(if is_right { right } else { wrong }).to_vec()];
    while random.chance(30) {
        let any = if random.chance(50) { right } else { wrong };
        values.push(random.pick(any).to_vec());
    }
    values
}

// ---- outputs

/// The head, which says this, with a start and outputs of any bytes for the outcome.
fn with_outputs(
    random: &mut Random,
    head: Vec<u8>,
    says: Option<&Head>,
    outcome: Outcome,
    known: Known,
) -> Made {
    let is_redirect = matches!(says, Some(Head::Redirect(_)));
    let (item, text) = match says {
        Some(says) => (says.item(0).len(), says.text().len()),
        None => (8, [0, 40, head.len()][random.below(3)]),
    };
    // Refusal 16 comes before 15, which may have more causes than one; an answer asks nothing of its start.
    let percent = match outcome {
        Outcome::BadHead => 30,
        Outcome::ShortItem | Outcome::ShortText | Outcome::FarStart => 8,
        _ => 0,
    };
    let short_item = outcome == Outcome::ShortItem || random.chance(percent);
    let short_text = outcome == Outcome::ShortText || random.chance(percent);
    let far = outcome == Outcome::FarStart || random.chance(if is_redirect { percent } else { 30 });
    let starts = [0, 1, 255, 256, 65_534, 65_535, random.below(65_536) as u32];
    let far_starts = [65_536, 65_537, 131_071, 1 << 24, u32::MAX, 65_536 + random.below(65_536) as u32];
    let start = if far { far_starts[random.below(6)] } else { starts[random.below(7)] };
    let (item, text) = (output(random, item, short_item), output(random, text, short_text));
    Made { head, start, item, text, known }
}

/// An output that is long enough for so many bytes, or is not.
fn output(random: &mut Random, needed: usize, short: bool) -> Vec<u8> {
    let length = match (short, random.below(3)) {
        (true, 0) => random.below(needed.max(1)),
        (true, _) => needed.saturating_sub(1),
        (false, 0) => needed + 1 + random.below(40),
        (false, _) => needed,
    };
    (0..length).map(|_| random.next() as u8).collect()
}
