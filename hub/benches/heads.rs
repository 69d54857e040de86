//! Microseconds for one response head: the proved library beside a Rust program with the crate `httparse`, which reads
//! the head in one pass into a list of field lines, and then looks up the same in it and writes the same.
//!
//! `cargo bench --bench heads -- redirect value` prints the rows of these heads alone.

mod rows;
mod timing;

use facets_hub::{read_head, Head};
use httparse::{Header, ParserConfig, Response, Status};
use rows::{microseconds, Wanted};
use std::{hint::black_box, mem::MaybeUninit};
use timing::{timed, ALL, HOW};

const LONGEST: usize = 8192;

/// As many field lines as the longest head has.
const LINES: usize = LONGEST / 4;

/// What the library writes for a head, over httparse: the lengths of item and Location.
fn other(head: &[u8], start: u16, item: &mut [u8], text: &mut [u8]) -> Option<(usize, usize)> {
    let mut lines = [const { MaybeUninit::<Header>::uninit() }; LINES];
    let mut response = Response::new(&mut []);
    let read =
        ParserConfig::default().parse_response_with_uninit_headers(&mut response, head, &mut lines).ok()?;
    if head.len() > LONGEST || read != Status::Complete(head.len()) {
        return None;
    }
    let named = |name: &'static str| {
        let named = move |line: &&Header| line.name.eq_ignore_ascii_case(name);
        response.headers.iter().filter(named).map(|line| line.value)
    };
    let status = response.code?;
    let [high, low] = status.to_be_bytes();
    if !(300..=399).contains(&status) {
        let value = named("Content-Type").next().unwrap_or_default();
        let media_type = value.split(|&byte| byte == b';').next().unwrap_or_default().trim_ascii_end();
        let seen = media_type.eq_ignore_ascii_case(b"application/fido.trusted-apps+json");
        item.get_mut(..4)?.copy_from_slice(&[2, high, low, u8::from(seen)]);
        return Some((4, 0));
    }
    let mut locations = named("Location");
    let (location, None) = (locations.next()?, locations.next()) else {
        return None;
    };
    let seen = named("FIDO-AppID-Redirect-Authorized").next().is_some_and(|value| value == b"true");
    let ([start, more], [length, rest]) = (start.to_be_bytes(), (location.len() as u16).to_be_bytes());
    text.get_mut(..location.len())?.copy_from_slice(location);
    item.get_mut(..8)?.copy_from_slice(&[1, high, low, u8::from(seen), start, more, length, rest]);
    Some((8, location.len()))
}

/// A redirect and an answer as servers send them.
const REDIRECT: &str = "HTTP/1.1 302 Found\r\n\
    Date: Tue, 14 May 2024 09:21:07 GMT\r\n\
    Server: Apache/2.4.59 (Debian)\r\n\
    Strict-Transport-Security: max-age=63072000; includeSubDomains\r\n\
    FIDO-AppID-Redirect-Authorized: true\r\n\
    Location: https://login.example.com/.well-known/facets.json\r\n\
    Content-Length: 309\r\n\
    Keep-Alive: timeout=5, max=100\r\n\
    Connection: Keep-Alive\r\n\
    Content-Type: text/html; charset=iso-8859-1\r\n\
    \r\n";
const ANSWER: &str = "HTTP/1.1 200 OK\r\n\
    Server: nginx/1.24.0\r\n\
    Date: Tue, 14 May 2024 09:21:08 GMT\r\n\
    Content-Type: application/fido.trusted-apps+json; charset=utf-8\r\n\
    Content-Length: 411\r\n\
    Last-Modified: Mon, 18 Mar 2024 15:02:44 GMT\r\n\
    Connection: keep-alive\r\n\
    ETag: \"65f856a4-19b\"\r\n\
    Cache-Control: public, max-age=3600\r\n\
    X-Content-Type-Options: nosniff\r\n\
    Strict-Transport-Security: max-age=63072000; includeSubDomains; preload\r\n\
    Accept-Ranges: bytes\r\n\
    \r\n";

/// A head of 8,192 bytes: these lines, then lines that are so many bytes long with their ends.
fn longest(lines: &str, more: impl Fn(usize) -> String) -> String {
    let head = format!("{lines}{}\r\n", more(LONGEST - lines.len() - 2));
    assert_eq!(head.len(), LONGEST);
    head
}

/// As many lines of this name, each with an empty value, as there are bytes for; the last value takes the rest.
fn named(name: &str, bytes: usize) -> String {
    let line = format!("{name}:\r\n");
    let (count, rest) = (bytes / line.len(), bytes % line.len());
    format!("{}{name}:{}\r\n", line.repeat(count - 1), "v".repeat(rest))
}

/// The heads: their names, what they are, and their bytes.
fn heads() -> Vec<(&'static str, &'static str, String)> {
    let found = "HTTP/1.1 302 Found\r\nLocation: https://b.example/f\r\n";
    let ok = "HTTP/1.1 200 OK\r\n";
    let value = |bytes: usize| format!("X: {}\r\n", "v".repeat(bytes - 5));
    let name = |bytes: usize| format!("{}:\r\n", "n".repeat(bytes - 3));
    let location = |bytes: usize| format!("Location: {}\r\n", "l".repeat(bytes - 12));
    let authorized = "FIDO-AppID-Redirect-Authorized";
    let near = "FIDO-AppID-Redirect-Authorizes";
    vec![
        ("redirect", "a redirect as a server sends it", REDIRECT.to_owned()),
        ("answer", "an answer as a server sends it", ANSWER.to_owned()),
        ("value", "a redirect with one long value", longest(found, value)),
        (
            "blanks",
            "a redirect with blanks around a value",
            longest(found, |bytes| {
                format!("X:{}v{}\r\n", " ".repeat((bytes - 5) / 2), "\t".repeat((bytes - 5).div_ceil(2)))
            }),
        ),
        ("location", "a redirect with the longest Location", longest("HTTP/1.1 302 Found\r\n", location)),
        ("name", "a redirect with one long name", longest(found, name)),
        ("reason", "an answer with a long reason", {
            let ended = |bytes: usize| "r".repeat(bytes - 2) + "\r\n";
            longest("HTTP/1.1 200 ", ended)
        }),
        (
            "lines",
            "an answer with lines of one byte and a colon",
            longest(ok, |bytes| self::named("a", bytes)),
        ),
        ("found", "a redirect with such lines", longest(found, |bytes| self::named("a", bytes))),
        ("seen", "a redirect with authorized lines", longest(found, |bytes| self::named(authorized, bytes))),
        (
            "near",
            "a redirect with lines of a name much like it",
            longest(found, |bytes| self::named(near, bytes)),
        ),
        (
            "types",
            "an answer with content type lines",
            longest(ok, |bytes| self::named("Content-Type", bytes)),
        ),
        ("locations", "an answer with Location lines", longest(ok, |bytes| self::named("Location", bytes))),
    ]
}

fn main() {
    let heads = heads();
    let names: Vec<&str> = heads.iter().map(|head| head.0).collect();
    let wanted = Wanted::new(&names);
    for (name, what, head) in &heads {
        println!("head {name}: {what}; {} bytes, {} lines", head.len(), head.matches("\r\n").count());
    }
    println!("\nMicroseconds a call: {HOW}.\n");
    println!("| head      | bytes |   facets |    other |    ratio |");
    println!("|-----------|------:|---------:|---------:|---------:|");
    let mut most = (0.0, "");
    for (name, _, head) in heads.iter().filter(|head| wanted.has(&names, head.0)) {
        let (mut item, mut text) = ([0; 8], [0; LONGEST]);
        let ours = || {
            let read = read_head(black_box(head.as_bytes()), 258, &mut item, &mut text).ok();
            read.map(|read: Head| (read.item_len(), read.location_len()))
        };
        let (ours, time) = timed(ALL, ours);
        let (mut other_item, mut other_text) = ([0; 8], [0; LONGEST]);
        let others = || other(black_box(head.as_bytes()), 258, &mut other_item, &mut other_text);
        let (others, other_time) = timed(ALL, others);
        assert!(ours.is_some() && ours == others, "{name}: {ours:?}, {others:?}");
        assert!(item == other_item && text == other_text, "{name}");
        let (ratio, length) = (time / other_time, head.len());
        let (time, other_time) = (microseconds(time), microseconds(other_time));
        println!("| {name:<9} | {length:>5} | {time:>8} | {other_time:>8} | {ratio:>8.1} |");
        if ratio > most.0 {
            most = (ratio, name);
        }
    }
    println!("\nLargest ratio: {:.1} ({})", most.0, most.1);
}
