//! Generated and damaged heads beside the model.

use crate::{
    check,
    make::{
        bad_head::FAULTS,
        head::{any, Known, Made, Outcome, OUTCOMES},
    },
    model::head::{named, parse, read, write, Field, Head, Short},
    random::Random,
};
use std::collections::BTreeMap;

const ROUNDS: usize = 200_000;

/// What the model says the call comes to; of refusal 15 every cause.
fn outcomes(made: &Made) -> Vec<Outcome> {
    let Made { head, start, item, text, .. } = made;
    match write(head, *start, &mut item.clone(), &mut text.clone()) {
        Ok(Head::Redirect(redirect)) if redirect.header_seen => vec![Outcome::Authorized],
        Ok(Head::Redirect(_)) => vec![Outcome::NotAuthorized],
        Ok(Head::Answer(answer)) if answer.type_seen => vec![Outcome::RightType],
        Ok(Head::Answer(_)) => vec![Outcome::OtherType],
        Err(16) => vec![Outcome::BadHead],
        Err(_) => {
            let Short { item, text, start } = read(head).expect("a head").short(*start, item, text);
            let causes = [(item, Outcome::ShortItem), (text, Outcome::ShortText), (start, Outcome::FarStart)];
            causes.into_iter().filter(|cause| cause.0).map(|cause| cause.1).collect()
        }
    }
}

/// Asserts that the model says of a head what its maker knows of it.
fn as_made(made: &Made, outcomes: &[Outcome]) {
    let shown = || made.head.escape_ascii();
    match &made.known {
        Known::Says(says, outcome) => {
            assert_eq!(read(&made.head).as_ref(), Some(says), "{}", shown());
            assert!(outcomes.contains(outcome), "{outcomes:?} for {outcome:?}: {}", shown());
        }
        Known::Bad(fault) => assert_eq!(outcomes, [Outcome::BadHead], "{fault}: {}", shown()),
        Known::Damaged => {}
    }
}

/// A head that is read.
struct Seen<'a> {
    head: &'a [u8],
    status: u16,
    fields: Vec<Field>,
}

const AUTHORIZED: &str = "FIDO-AppID-Redirect-Authorized";
const TYPE: &str = "Content-Type";
const LOCATION: &str = "Location";

impl Seen<'_> {
    fn is_redirect(&self) -> bool {
        (300..=399).contains(&self.status)
    }

    fn values<'a>(&'a self, name: &'a str) -> Vec<&'a str> {
        named(&self.fields, name).map(|field| field.1.as_str()).collect()
    }

    fn is_spelled(&self, names: &[&str]) -> bool {
        self.fields.iter().any(|field| names.contains(&&*field.0))
    }

    /// Whether a later line of the name has it in another case than the first.
    fn repeats_in_another_case(&self, name: &str) -> bool {
        let mut named = named(&self.fields, name);
        let first = named.next();
        first.is_some_and(|first| named.any(|field| field.0 != first.0))
    }

    /// Whether a redirect's first authorized line, and one behind it, are such.
    fn authorized(&self, first: fn(&str) -> bool, later: fn(&str) -> bool) -> bool {
        let values = self.values(AUTHORIZED);
        let (at_first, others) = values.split_first().unwrap_or((&"", &[]));
        self.is_redirect() && first(at_first) && others.iter().any(|value| later(value))
    }
}

/// Whether it is to be seen in a head.
type IsSeen = fn(&Seen) -> bool;

/// What there is to be seen in a head that is read.
const MARKS: [(&str, IsSeen); 26] = [
    ("no field lines", |seen| seen.fields.is_empty()),
    ("ten field lines or more", |seen| seen.fields.len() >= 10),
    ("8,190 to 8,192 bytes", |seen| seen.head.len() >= 8190),
    ("version other than 1.0 and 1.1", |seen| {
        !seen.head.starts_with(b"HTTP/1.0") && !seen.head.starts_with(b"HTTP/1.1")
    }),
    ("no reason", |seen| seen.head[13] == b'\r'),
    ("status 099", |seen| seen.status == 99),
    ("status 299", |seen| seen.status == 299),
    ("status 300", |seen| seen.status == 300),
    ("status 399", |seen| seen.status == 399),
    ("status 400", |seen| seen.status == 400),
    ("true, then another", |seen| seen.authorized(|first| first == "true", |later| later != "true")),
    ("another, then true", |seen| seen.authorized(|first| first != "true", |later| later == "true")),
    ("empty, then true", |seen| seen.authorized(str::is_empty, |later| later == "true")),
    ("authorized headers in other cases", |seen| {
        seen.is_redirect() && seen.repeats_in_another_case(AUTHORIZED)
    }),
    ("content types in other cases", |seen| !seen.is_redirect() && seen.repeats_in_another_case(TYPE)),
    ("content types in an answer", |seen| !seen.is_redirect() && seen.values(TYPE).len() > 1),
    ("content types in a redirect", |seen| seen.is_redirect() && seen.values(TYPE).len() > 1),
    ("one Location in an answer", |seen| !seen.is_redirect() && seen.values(LOCATION).len() == 1),
    ("Locations in an answer", |seen| !seen.is_redirect() && seen.values(LOCATION).len() > 1),
    ("authorized header in an answer", |seen| !seen.is_redirect() && !seen.values(AUTHORIZED).is_empty()),
    ("empty Location", |seen| seen.is_redirect() && seen.values(LOCATION) == [""]),
    ("Location of 256 bytes or more", |seen| {
        seen.is_redirect() && seen.values(LOCATION)[0].chars().count() >= 256
    }),
    ("Location with other than ASCII", |seen| seen.is_redirect() && !seen.values(LOCATION)[0].is_ascii()),
    ("name in lower case", |seen| seen.is_spelled(&["location", "content-type"])),
    ("name in upper case", |seen| seen.is_spelled(&["LOCATION", "CONTENT-TYPE"])),
    ("empty value", |seen| seen.fields.iter().any(|field| field.1.is_empty())),
];

/// The marks of a head that is read.
fn marks(head: &[u8]) -> impl Iterator<Item = &'static str> + '_ {
    let (status, fields) = parse(head).expect("a head");
    let seen = Seen { head, status, fields };
    MARKS.into_iter().filter(move |mark| mark.1(&seen)).map(|mark| mark.0)
}

#[test]
fn generated_heads_beside_the_model() {
    let mut random = Random::new(9);
    let mut counts: BTreeMap<Vec<Outcome>, usize> = BTreeMap::new();
    let mut faults: BTreeMap<&str, usize> = FAULTS.map(|fault| (fault.0, 0)).into();
    let mut seen: BTreeMap<&str, usize> = MARKS.map(|mark| (mark.0, 0)).into();
    for _ in 0..ROUNDS {
        let made = any(&mut random);
        let outcomes = outcomes(&made);
        as_made(&made, &outcomes);
        let _ = check::head(&made.head, made.start, &made.item, &made.text);
        if let Known::Bad(fault) = made.known {
            *faults.get_mut(fault).expect("a fault") += 1;
        }
        if outcomes != [Outcome::BadHead] {
            for mark in marks(&made.head) {
                *seen.get_mut(mark).expect("a mark") += 1;
            }
        }
        *counts.entry(outcomes).or_default() += 1;
    }
    println!("{ROUNDS} generated heads: {counts:?}");
    println!("bad heads by their fault: {faults:#?}");
    println!("heads that are read, by what is in them: {seen:#?}");
    for outcome in OUTCOMES {
        assert!(counts.get(&vec![outcome]) >= Some(&1_000), "{outcome:?}");
    }
    let many_causes = counts.iter().filter(|(outcomes, _)| outcomes.len() > 1);
    assert!(many_causes.map(|(_, count)| count).sum::<usize>() >= 1_000, "refusal 15 by more causes");
    let rare: Vec<_> = faults.iter().chain(&seen).filter(|(_, &count)| count < 1_000).collect();
    assert!(rare.is_empty(), "fewer than 1,000 of {rare:?}");
}
