//! Heads beside another reader, the crate `httparse`, which gives status and field lines; what the request asks of
//! these is looked up here.
//!
//! The two differ in these ways alone. httparse is stricter:
//!
//! - it reads the versions 1.0 and 1.1 only (`Version`).
//!
//! httparse is laxer than RFC 9112's grammar, or than the request:
//!
//! - it passes over empty lines before the status line (`LinesBefore`);
//! - it reads a status with no SP and no reason behind it (`NoBlank`);
//! - it reads LF alone as the end of any line (`LoneLf`);
//! - it stops behind the empty line, whatever follows (`BytesBehind`);
//! - it knows no bound of 8,192 bytes (`TooLong`).
//!
//! Each is shown by mending the head: without its odd version, or with what httparse tolerates brought into the
//! grammar's form, both read the same. httparse also has no more room for field lines than its caller gives; here it
//! is enough for all.

use crate::{
    make::head::any,
    model::{
        head::{bytes, parse, Field, Head},
        record::{self, Answer, Redirect},
    },
    random::Random,
};
use facets_hub::{read_head, Refusal};
use httparse::{Response, Status, EMPTY_HEADER};
use std::collections::{BTreeMap, BTreeSet};

const ROUNDS: usize = 200_000;

/// How a head differs from what both read.
#[derive(Clone, Copy, Debug, PartialEq, Eq, PartialOrd, Ord)]
pub enum Way {
    Version,
    LinesBefore,
    NoBlank,
    LoneLf,
    BytesBehind,
    TooLong,
}

/// What came of a comparison.
#[derive(Clone, Debug, PartialEq, Eq, PartialOrd, Ord)]
pub enum Compared {
    BothRead,
    BothRefuse,
    /// In which ways the head is one that httparse alone reads, or the library alone.
    Differ(BTreeSet<Way>),
}

/// What the library says of a head; nothing where it is a bad one.
fn library(head: &[u8]) -> Option<Head> {
    let (mut item, mut text) = ([0; 8], vec![0; head.len()]);
    let read = match read_head(head, 0, &mut item, &mut text) {
        Ok(read) => read,
        Err(refusal) => {
            assert_eq!(refusal, Refusal::BadHead);
            return None;
        }
    };
    let record = record::read(&item[..read.item_len()], &text[..read.location_len()]).expect("an item");
    let redirect = record.redirects.into_iter().next().map(Head::Redirect);
    redirect.or(record.answer.map(Head::Answer))
}

/// What httparse reads: status, field lines, and how many bytes of the head.
struct Theirs {
    status: u16,
    fields: Vec<Field>,
    length: usize,
}

fn httparse(head: &[u8]) -> Option<Theirs> {
    // Room for every line there can be.
    let mut headers = vec![EMPTY_HEADER; head.iter().filter(|&&byte| byte == b'\n').count()];
    let mut response = Response::new(&mut headers);
    let Ok(Status::Complete(length)) = response.parse(head) else {
        return None;
    };
    let text = |value: &[u8]| value.iter().map(|&byte| char::from(byte)).collect();
    let fields = response.headers.iter().map(|field| (field.name.to_owned(), text(field.value)));
    Some(Theirs { status: response.code.expect("a status"), fields: fields.collect(), length })
}

impl Theirs {
    /// What these lines say by the request.
    fn says(&self) -> Option<Head> {
        let named = |name: &'static str| {
            let named = move |field: &&Field| field.0.to_ascii_lowercase() == name;
            self.fields.iter().filter(named).map(|field| field.1.as_str())
        };
        let status = self.status;
        if status / 100 == 3 {
            let (location, more) = (named("location").next()?, named("location").nth(1));
            let header_seen = named("fido-appid-redirect-authorized").next() == Some("true");
            let redirect = Redirect { status, header_seen, location: bytes(location) };
            return more.is_none().then_some(Head::Redirect(redirect));
        }
        let content_type = named("content-type").next().unwrap_or_default().to_ascii_lowercase();
        let media_type = content_type.split_once(';').map_or(&*content_type, |(before, _)| before);
        let type_seen = media_type.trim_end_matches([' ', '\t']) == "application/fido.trusted-apps+json";
        Some(Head::Answer(Answer { status, type_seen }))
    }
}

/// A head of which httparse reads so many bytes, in the grammar's form, and the ways in which it was mended.
fn mended(head: &[u8], length: usize) -> (Vec<u8>, BTreeSet<Way>) {
    let (head, behind) = head.split_at(length);
    let first = head.iter().position(|byte| !b"\r\n".contains(byte)).unwrap_or(0);
    let mut good = Vec::new();
    for (at, &byte) in head.iter().enumerate().skip(first) {
        if byte == b'\n' && head[at - 1] != b'\r' {
            good.push(b'\r');
        }
        good.push(byte);
    }
    let lone_lf = good.len() > head.len() - first;
    let no_blank = good.get(12) == Some(&b'\r');
    if no_blank {
        good.insert(12, b' ');
    }
    let ways = [
        (Way::LinesBefore, first > 0),
        (Way::NoBlank, no_blank),
        (Way::LoneLf, lone_lf),
        (Way::BytesBehind, !behind.is_empty()),
        (Way::TooLong, good.len() > 8192),
    ];
    (good, ways.into_iter().filter(|way| way.1).map(|way| way.0).collect())
}

/// Asserts that library and httparse read the same, or differ in known ways.
pub fn beside(head: &[u8]) -> Compared {
    let shown = || head.escape_ascii();
    match (httparse(head), library(head)) {
        (None, None) => Compared::BothRefuse,
        (None, Some(ours)) => {
            let other = [&head[..5], b"1.1", &head[8..]].concat();
            let theirs = httparse(&other).unwrap_or_else(|| panic!("httparse refuses {}", shown()));
            assert_eq!((theirs.says(), theirs.length), (Some(ours), head.len()), "{}", shown());
            assert_eq!(parse(head), Some((theirs.status, theirs.fields)), "{}", shown());
            Compared::Differ([Way::Version].into())
        }
        (Some(theirs), ours) => {
            let (good, ways) = mended(head, theirs.length);
            let says = theirs.says();
            assert_eq!(parse(&good), Some((theirs.status, theirs.fields)), "{}", shown());
            if !ways.contains(&Way::TooLong) {
                assert_eq!(library(&good), says, "{}", shown());
            }
            match ways.is_empty() {
                true => Compared::BothRead,
                false => {
                    assert_eq!(ours, None, "{ways:?}: {}", shown());
                    Compared::Differ(ways)
                }
            }
        }
    }
}

#[test]
fn generated_heads_beside_httparse() {
    let mut random = Random::new(10);
    let mut compared: BTreeMap<Compared, usize> = BTreeMap::new();
    for _ in 0..ROUNDS {
        *compared.entry(beside(&any(&mut random).head)).or_default() += 1;
    }
    println!("{ROUNDS} generated heads beside httparse: {compared:#?}");
    let ways = [Way::Version, Way::LinesBefore, Way::NoBlank, Way::LoneLf, Way::BytesBehind, Way::TooLong];
    let alone = ways.map(|way| Compared::Differ([way].into()));
    for class in [Compared::BothRead, Compared::BothRefuse].iter().chain(&alone) {
        assert!(compared.get(class) >= Some(&1_000), "{class:?}");
    }
}
