//! Generated and damaged inputs beside the model.

use crate::{
    case::Case,
    check,
    make::case::{self, DECISIONS},
    model::{
        decision::{code, Answer, Decision},
        identifier::{facet, url, Facet, Web},
        list::{selected, Judge},
        record,
    },
    random::Random,
};
use std::collections::BTreeMap;

const ROUNDS: usize = 200_000;

/// How two ports are written, and how far they are apart.
#[derive(Clone, Copy, Debug, PartialEq, Eq, PartialOrd, Ord)]
enum Ports {
    BothAbsent,
    /// 443 is written by the caller alone, by the other alone, or by both.
    CallerWrites443,
    OtherWrites443,
    BothWrite443,
    Equal,
    DigitApart,
    FarApart,
}

impl Ports {
    const EQUAL: [Ports; 5] = {
        use Ports::{BothAbsent, BothWrite443, CallerWrites443, Equal, OtherWrites443};
        [BothAbsent, CallerWrites443, OtherWrites443, BothWrite443, Equal]
    };
    const APART: [Ports; 2] = [Ports::DigitApart, Ports::FarApart];

    fn of(caller: &Web, other: &Web) -> Ports {
        let digits = |web: &Web| web.port.unwrap_or(443).to_string().into_bytes();
        let (first, second) = (digits(caller), digits(other));
        let differ = first.iter().zip(&second).filter(|(a, b)| a != b).count();
        match (caller.port, other.port) {
            (None, None) => Ports::BothAbsent,
            (Some(443), None) => Ports::CallerWrites443,
            (None, Some(443)) => Ports::OtherWrites443,
            (Some(443), Some(443)) => Ports::BothWrite443,
            _ if first == second => Ports::Equal,
            _ if first.len() == second.len() && differ == 1 => Ports::DigitApart,
            _ => Ports::FarApart,
        }
    }
}

/// The ports of a web caller and of all that has its host: by rule 3 the AppID; by rule 4 the kept entries up to the
/// one that allows it; every kept entry where it is not listed.
fn compared(case: &Case, decision: Decision) -> Vec<Ports> {
    let Some(Facet::Web(caller)) = facet(&case.caller) else {
        return Vec::new();
    };
    let others: Vec<Web> = match decision {
        Ok(Answer::Rule(3)) => url(&case.appid).into_iter().collect(),
        Ok(Answer::Listed(_)) | Err(14) => {
            let entries = selected(&case.body, case.major, case.minor).expect("a list");
            let kept = Judge { appid: &case.appid, table: &case.table }.kept(&entries);
            let web = |entry: Facet| match entry {
                Facet::Web(web) => Some(web),
                Facet::Native(_) => None,
            };
            let seen = if let Ok(Answer::Listed(place)) = decision { place as usize + 1 } else { kept.len() };
            kept.into_iter().take(seen).filter_map(web).collect()
        }
        _ => Vec::new(),
    };
    let of_host = others.iter().filter(|web| web.host.eq_ignore_ascii_case(&caller.host));
    of_host.map(|web| Ports::of(&caller, web)).collect()
}

/// How often a web caller was answered so beside such ports; of rule 4, also how often an entry on another port stood
/// before the one that allows.
#[derive(Default)]
struct Compared {
    answers: BTreeMap<(u16, Ports), usize>,
    passed: usize,
}

impl Compared {
    fn count(&mut self, code: u16, ports: &[Ports]) {
        let apart = |ports: &Ports| Ports::APART.contains(ports);
        match code {
            4 => {
                let Some((last, before)) = ports.split_last() else {
                    return;
                };
                assert!(!apart(last) && before.iter().all(apart), "allowed by {ports:?}");
                self.passed += usize::from(!before.is_empty());
                *self.answers.entry((code, *last)).or_default() += 1;
            }
            _ => {
                assert!(code == 3 || ports.iter().all(apart), "not listed beside {ports:?}");
                for ports in ports {
                    *self.answers.entry((code, *ports)).or_default() += 1;
                }
            }
        }
    }

    fn often(&self) {
        println!("ports of web callers by answer: {:?}; {} entries passed", self.answers, self.passed);
        let [equal, apart] = [&Ports::EQUAL[..], &Ports::APART];
        for (code, ports) in [(3, equal), (3, apart), (4, equal), (114, apart)] {
            for ports in ports {
                assert!(self.answers.get(&(code, *ports)) >= Some(&300), "answers {code}, ports {ports:?}");
            }
        }
        assert!(self.passed >= 300, "entries passed");
    }
}

#[test]
fn generated_decisions_beside_the_model() {
    let mut random = Random::new(3);
    let mut codes: BTreeMap<u16, usize> = DECISIONS.map(|code| (code, 0)).into();
    // Of rule 4 the places, of fetch the redirects before it.
    let mut places: BTreeMap<u32, usize> = BTreeMap::new();
    let mut redirects = [0; 9];
    let mut ports = Compared::default();
    for round in 0..ROUNDS {
        // Every second round aims at the list's end of the order, where most is to be told apart.
        let wanted = if round % 2 == 0 { random.below(DECISIONS.len()) } else { 12 + random.below(7) };
        let case = case::decision(&mut random, wanted);
        let decision = check::decision(&case);
        *codes.get_mut(&code(decision)).expect("a code of document 01") += 1;
        ports.count(code(decision), &compared(&case, decision));
        match decision {
            Ok(Answer::Listed(place)) => *places.entry(place).or_default() += 1,
            Ok(Answer::Fetch) => {
                redirects[record::read(&case.record, &case.text).expect("a record").redirects.len()] += 1;
            }
            _ => {}
        }
    }
    println!(
        "{ROUNDS} generated decisions: {codes:?}, places {places:?}, fetches after redirects {redirects:?}"
    );
    let rare: Vec<_> = codes.iter().filter(|(_, &count)| count < 1_000).collect();
    assert!(rare.is_empty(), "fewer than 1,000 of {rare:?}");
    assert!(places.len() >= 4 && redirects.iter().all(|&count| count >= 100));
    ports.often();
}
