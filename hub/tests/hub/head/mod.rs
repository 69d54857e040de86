//! Tests of how a response head is read.

mod bounds;
mod cases;
mod generated;
mod grammar;
mod reading_back;
mod samples;
mod second_opinion;

use crate::{
    check,
    model::{
        head::Head,
        record::{Answer, Redirect},
    },
};

const LOCATION: &str = "Location: https://b.example/f";
const URL: &str = "https://b.example/f";
const AUTHORIZED: &str = "FIDO-AppID-Redirect-Authorized: true";
const TYPE: &str = "Content-Type: application/fido.trusted-apps+json";

/// An output's bytes before a call.
fn pattern(length: usize) -> Vec<u8> {
    (0..length).map(|at| at as u8 ^ 0x5A).collect()
}

/// Starts on both sides of the bound.
const STARTS: [u32; 5] = [0, 258, 65_535, 65_536, u32::MAX];

/// Asserts that library and model both say this of the head, into outputs on both sides of the lengths it needs, and
/// that the crate `httparse` agrees, or differs in a known way.
#[track_caller]
fn says(head: &[u8], expected: &Head) {
    second_opinion::beside(head);
    let (item, text, last_start) = match expected {
        Head::Redirect(redirect) => (8, redirect.location.len(), 65_535),
        Head::Answer(_) => (4, 0, u32::MAX),
    };
    for start in STARTS {
        for item_room in [0, item - 1, item, item + 5] {
            for text_room in [0, text.saturating_sub(1), text, text + 9] {
                let short = item_room < item || text_room < text || start > last_start;
                let expected = if short { Err(15) } else { Ok(expected.clone()) };
                assert_eq!(check::head(head, start, &pattern(item_room), &pattern(text_room)), expected);
            }
        }
    }
}

/// Asserts that the head is a redirect's with this status, header and Location.
#[track_caller]
fn redirect(head: impl AsRef<[u8]>, status: u16, header_seen: bool, location: impl AsRef<[u8]>) {
    let location = location.as_ref().to_vec();
    says(head.as_ref(), &Head::Redirect(Redirect { status, header_seen, location }));
}

/// Asserts that the head is an answer's with this status and content type.
#[track_caller]
fn answer(head: impl AsRef<[u8]>, status: u16, type_seen: bool) {
    says(head.as_ref(), &Head::Answer(Answer { status, type_seen }));
}

/// Asserts refusal 16, also where refusal 15 would fit, and that the crate `httparse` agrees, or differs in a known
/// way.
#[track_caller]
fn refused(head: impl AsRef<[u8]>) {
    second_opinion::beside(head.as_ref());
    for start in STARTS {
        for (item, text) in [(0, 0), (20, 0), (0, 60), (20, 60)] {
            assert_eq!(check::head(head.as_ref(), start, &pattern(item), &pattern(text)), Err(16));
        }
    }
}

/// The head of this status line and these field lines.
fn head_of<L: AsRef<[u8]>>(status_line: impl AsRef<[u8]>, fields: &[L]) -> Vec<u8> {
    let mut head = [status_line.as_ref(), b"\r\n"].concat();
    for line in fields {
        head.extend([line.as_ref(), b"\r\n"].concat());
    }
    head.extend(b"\r\n");
    head
}

/// A redirect's head with these field lines.
fn found<L: AsRef<[u8]>>(fields: &[L]) -> Vec<u8> {
    head_of("HTTP/1.1 302 Found", fields)
}

/// An answer's head with these field lines.
fn ok<L: AsRef<[u8]>>(fields: &[L]) -> Vec<u8> {
    head_of("HTTP/1.1 200 OK", fields)
}
