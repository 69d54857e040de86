//! "Reading the response head ourselves": the request's sentences stand above the lines that say the same. The
//! grammar is RFC 9112's, taken strictly.

use super::{
    record::{Answer, Redirect},
    Refused,
};

/// What a head says.
#[derive(Clone, Debug, PartialEq, Eq)]
pub enum Head {
    Redirect(Redirect),
    Answer(Answer),
}

/// What the head says; nothing where it is not in this form, or a redirect is without its one Location.
pub fn read(head: &[u8]) -> Option<Head> {
    // At most 8,192 bytes.
    if head.len() > 8192 {
        return None;
    }
    let (status, fields) = parse(head)?;
    let values = |name| named(&fields, name).map(|field| field.1.as_str());
    // Of repeated lines of one name the first counts.
    let first = |name| values(name).next();
    // A status from 300 to 399 makes a redirect and needs exactly one Location line;
    if (300..=399).contains(&status) {
        let [location] = values("Location").collect::<Vec<_>>()[..] else {
            return None;
        };
        // `FIDO-AppID-Redirect-Authorized` counts only with the value `true`.
        let header_seen = first("FIDO-AppID-Redirect-Authorized") == Some("true");
        return Some(Head::Redirect(Redirect { status, header_seen, location: bytes(location) }));
    }
    // any other makes an answer.
    let type_seen = first("Content-Type").is_some_and(is_right_type);
    Some(Head::Answer(Answer { status, type_seen }))
}

/// The lines of a name. Header names compare without case.
pub fn named<'a>(fields: &'a [Field], name: &'a str) -> impl Iterator<Item = &'a Field> {
    fields.iter().filter(move |field| field.0.eq_ignore_ascii_case(name))
}

/// Content type is right where it equals `application/fido.trusted-apps+json` without case, up to its first `;`
/// and blanks before it.
fn is_right_type(value: &str) -> bool {
    let before = value.split(';').next().unwrap_or_default();
    before.trim_end_matches(BLANKS).eq_ignore_ascii_case("application/fido.trusted-apps+json")
}

/// Spaces and tabs.
const BLANKS: [char; 2] = [' ', '\t'];

/// A field line's name and value.
pub type Field = (String, String);

/// The status and the field lines, a character for each byte. One head: RFC 9112 status line and field lines, CRLF
/// ends, empty line last.
pub fn parse(head: &[u8]) -> Option<(u16, Vec<Field>)> {
    let text: String = head.iter().map(|&byte| char::from(byte)).collect();
    let lines: Vec<&str> = text.split("\r\n").collect();
    // The empty line has its CRLF too, and nothing stands behind it.
    let [status_line, field_lines @ .., "", ""] = &lines[..] else {
        return None;
    };
    Some((status(status_line)?, field_lines.iter().map(|line| field(line)).collect::<Option<_>>()?))
}

/// The bytes of a part of a head.
pub fn bytes(text: &str) -> Vec<u8> {
    text.chars().map(|character| u8::try_from(character).expect("one byte")).collect()
}

/// `HTTP/` DIGIT `.` DIGIT SP 3DIGIT SP and a reason that may be empty.
fn status(line: &str) -> Option<u16> {
    let (protocol, line) = line.split_once('/')?;
    let (major, line) = line.split_once('.')?;
    let (minor, line) = line.split_once(' ')?;
    let (status, reason) = line.split_once(' ')?;
    let is_good = protocol == "HTTP"
        && are_digits(major, 1)
        && are_digits(minor, 1)
        && are_digits(status, 3)
        && reason.chars().all(is_content);
    is_good.then(|| status.parse().expect("three digits"))
}

/// So many of `0` to `9`.
fn are_digits(text: &str, count: usize) -> bool {
    text.len() == count && text.chars().all(|c| c.is_ascii_digit())
}

/// A token, `:` directly behind it, the value. Optional spaces and tabs around a value are dropped.
fn field(line: &str) -> Option<Field> {
    let (name, value) = line.split_once(':')?;
    (is_token(name) && value.chars().all(is_content))
        .then(|| (name.to_owned(), value.trim_matches(BLANKS).to_owned()))
}

/// One byte or more.
fn is_token(text: &str) -> bool {
    !text.is_empty() && text.chars().all(is_tchar)
}

/// What a name is made of: `!#$%&'*+-.^_|~`, "`", DIGIT, ALPHA.
pub fn is_tchar(c: char) -> bool {
    c.is_ascii_alphanumeric() || "!#$%&'*+-.^_`|~".contains(c)
}

/// Reason and value hold HTAB, SP, 0x21 to 0x7E, 0x80 to 0xFF.
pub fn is_content(c: char) -> bool {
    matches!(c, '\t' | ' ' | '\x21'..='\x7e' | '\u{80}'..='\u{ff}')
}

/// What of a call is short: the item's output, the Location's, or 2 bytes for a redirect's start.
#[derive(Clone, Copy, Debug, Default, PartialEq, Eq, PartialOrd, Ord)]
pub struct Short {
    pub item: bool,
    pub text: bool,
    pub start: bool,
}

impl Head {
    /// The record item, the text's start for the item being a number given with the head. Numbers are big-endian.
    pub fn item(&self, start: u16) -> Vec<u8> {
        match self {
            // Kind 1, redirect, 7 bytes: status (2), authorized header seen (1, value 0 or 1), start and length (2
            // each) of its Location.
            Head::Redirect(Redirect { status, header_seen, location }) => {
                let length = u16::try_from(location.len()).expect("a part of a head");
                let [status, start, length] = [*status, start, length].map(u16::to_be_bytes);
                [&[1], &status[..], &[u8::from(*header_seen)], &start, &length].concat()
            }
            // Kind 2, answer, 3 bytes: status (2, any), right content type seen (1, value 0 or 1).
            Head::Answer(Answer { status, type_seen }) => {
                [&[2], &status.to_be_bytes()[..], &[u8::from(*type_seen)]].concat()
            }
        }
    }

    /// Its Location text.
    pub fn text(&self) -> &[u8] {
        match self {
            Head::Redirect(redirect) => &redirect.location,
            Head::Answer(_) => b"",
        }
    }

    /// Either output is short or a redirect's start doesn't fit 2 bytes.
    pub fn short(&self, start: u32, item: &[u8], text: &[u8]) -> Short {
        Short {
            item: item.len() < self.item(0).len(),
            text: text.len() < self.text().len(),
            start: matches!(self, Head::Redirect(_)) && start > 65_535,
        }
    }
}

/// Writes the record item and, from byte 0 of a second output, its Location text; returns what the head says.
pub fn write(head: &[u8], start: u32, item: &mut [u8], text: &mut [u8]) -> Result<Head, Refused> {
    // Refused: 16, head not in this form or a redirect without its one Location;
    let head = read(head).ok_or(16u16)?;
    // then 15, where either output is short or a redirect's start doesn't fit 2 bytes.
    if head.short(start, item, text) != Short::default() {
        return Err(15);
    }
    // What a call doesn't write in an output remains. An answer has no start.
    let written = head.item(u16::try_from(start).unwrap_or_default());
    item[..written.len()].copy_from_slice(&written);
    text[..head.text().len()].copy_from_slice(head.text());
    Ok(head)
}
