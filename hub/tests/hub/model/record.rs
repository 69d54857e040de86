//! "Fetch record": the document's sentences stand above the lines that say the same.

#[derive(Clone, Debug, PartialEq, Eq)]
pub struct Redirect {
    pub status: u16,
    pub header_seen: bool,
    pub location: Vec<u8>,
}

#[derive(Clone, Debug, PartialEq, Eq)]
pub struct Answer {
    pub status: u16,
    pub type_seen: bool,
}

#[derive(Clone, Debug, Default, PartialEq, Eq)]
pub struct Record {
    pub redirects: Vec<Redirect>,
    pub answer: Option<Answer>,
}

/// The record; nothing where it is not as laid out, or a Location's start plus length passes the text's end.
pub fn read(record: &[u8], text: &[u8]) -> Option<Record> {
    let mut left = record;
    let mut redirects = Vec::new();
    // Each record item is one byte of kind, then a body whose length the kind fixes.
    // Kind 1, redirect, 7 bytes. At most 8 redirects,
    while left.first() == Some(&1) {
        let (body, rest) = left[1..].split_at_checked(7)?;
        redirects.push(redirect(body, text)?);
        left = rest;
    }
    // then at most one answer, kind 2, 3 bytes,
    let answer = match left.split_first() {
        Some((2, rest)) => {
            let (body, rest) = rest.split_at_checked(3)?;
            left = rest;
            Some(Answer { status: number(&body[..2]), type_seen: seen(body[2])? })
        }
        _ => None,
    };
    // then the end.
    (redirects.len() <= 8 && left.is_empty()).then_some(Record { redirects, answer })
}

/// Status (2, from 300 to 399), authorized header seen (1, value 0 or 1), start and length (2 each) of its
/// Location in a lent text.
fn redirect(body: &[u8], text: &[u8]) -> Option<Redirect> {
    let status = number(&body[..2]);
    if !(300..=399).contains(&status) {
        return None;
    }
    let (start, length) = (usize::from(number(&body[3..5])), usize::from(number(&body[5..7])));
    let location = text.get(start..start + length)?;
    Some(Redirect { status, header_seen: seen(body[2])?, location: location.to_vec() })
}

/// Numbers are big-endian.
fn number(bytes: &[u8]) -> u16 {
    u16::from(bytes[0]) * 256 + u16::from(bytes[1])
}

fn seen(byte: u8) -> Option<bool> {
    [false, true].get(usize::from(byte)).copied()
}
