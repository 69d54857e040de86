//! What holds of all calls together: discarded entries change nothing, nor does reading a cleaned list again.

mod padding;
mod rereading;

use crate::{
    case::Case,
    make::{
        identifier::{bad_url, facet, relative, sibling, url},
        record::{record, spoil, Answer, Redirect},
    },
    model::{
        identifier::{self as model, Facet},
        list::{selected, Judge},
    },
    random::Random,
};
use facets_hub::{clean, decision_code, decision_code_with_place, fetch_location, Refusal};
use std::collections::BTreeMap;

/// A record and its text: mostly of an answered list, else of any other fetch.
fn fetched(random: &mut Random, host: &str) -> (Vec<u8>, Vec<u8>) {
    let header = u8::from(!random.chance(5));
    let hop = |random: &mut Random| {
        let location = if random.chance(3) { bad_url(random, host) } else { url(random, host) };
        Redirect { status: 302, header, location: location.into_bytes() }
    };
    let hops: Vec<Redirect> = (0..random.below(3)).map(|_| hop(random)).collect();
    let answer = match random.below(30) {
        0 => None,
        1 => Some(Answer { status: 404, kind: 1 }),
        2 => Some(Answer { status: 200, kind: 0 }),
        _ => Some(Answer { status: 200, kind: 1 }),
    };
    let (mut record, mut text) = record(random, &hops, answer);
    if random.chance(3) {
        spoil(random, &mut record, &mut text);
    }
    (record, text)
}

/// Callers for a list, each once: its entries, facets or not, other origins of their hosts, and others.
fn callers(random: &mut Random, host: &str, entries: &[&String]) -> Vec<Vec<u8>> {
    let mut callers: Vec<Vec<u8>> = entries.iter().map(|entry| entry.as_bytes().to_vec()).collect();
    for entry in entries {
        if let Some(Facet::Web(web)) = model::facet(entry.as_bytes()) {
            callers.push(sibling(random, &web).into_bytes());
        }
    }
    for _ in 0..4 {
        let relative = relative(random, host);
        callers.push(facet(random, &relative).into_bytes());
    }
    callers.sort();
    callers.dedup();
    callers
}

/// The decision for a caller, by both calls: code, and place where there is one. The fetch location, which
/// takes no body, is empty unless the decision is fetch.
fn decided(case: &Case, caller: &[u8]) -> (u16, Option<u32>) {
    let inputs = facets_hub::Inputs { caller, ..case.decision() };
    let mut place = u32::MAX;
    let code = decision_code_with_place(&inputs, &mut place);
    assert_eq!(code, decision_code(&inputs), "{case:?}");
    assert_eq!(code == 4, place != u32::MAX, "{case:?}");
    let location = fetch_location(caller, &case.appid, &case.record, &case.text);
    assert_eq!(code == 5, !location.is_empty(), "{case:?}");
    (code, Some(place).filter(|_| code == 4))
}

/// Answers that were compared: how often each code, and how often a web caller was not listed beside a kept entry of
/// its host, which stands on another port.
#[derive(Debug, Default)]
struct Answers {
    codes: BTreeMap<u16, usize>,
    other_port: usize,
}

impl Answers {
    /// Asserts that both bodies decide alike for these callers, and counts the answers.
    fn alike(&mut self, one: &Case, other: &Case, callers: &[Vec<u8>]) {
        for caller in callers {
            let decision = decided(one, caller);
            assert_eq!(decided(other, caller), decision, "{}\n{one:?}\n{other:?}", caller.escape_ascii());
            *self.codes.entry(decision.0).or_default() += 1;
            self.other_port += usize::from(decision.0 == 114 && of_kept_host(one, caller));
        }
    }

    /// Asserts that each of these codes, and another port of a kept host, came up a thousand times.
    fn often(&self, codes: &[u16]) {
        for code in codes {
            assert!(self.codes.get(code) >= Some(&1_000), "decisions {code}");
        }
        assert!(self.other_port >= 1_000, "callers on another port of a kept host");
    }
}

/// Whether a kept entry has the web caller's host.
fn of_kept_host(case: &Case, caller: &[u8]) -> bool {
    let Some(Facet::Web(caller)) = model::facet(caller) else {
        return false;
    };
    let entries = selected(&case.body, case.major, case.minor).expect("a list");
    let kept = Judge { appid: &case.appid, table: &case.table }.kept(&entries);
    kept.iter().any(|entry| matches!(entry, Facet::Web(web) if web.host.eq_ignore_ascii_case(&caller.host)))
}

/// What cleaning into a copy of these bytes gives, and the bytes afterwards.
fn cleaned(case: &Case, out: &[u8]) -> (Result<usize, Refusal>, Vec<u8>) {
    let mut out = out.to_vec();
    (clean(&case.appid, case.major, case.minor, &case.body, &case.table, &mut out), out)
}

/// An output of any bytes.
fn output(random: &mut Random, length: usize) -> Vec<u8> {
    (0..length).map(|_| random.next() as u8).collect()
}
