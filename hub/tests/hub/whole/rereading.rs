//! A cleaned list, read again as a body: every caller's decision and the cleaned bytes stay.

use super::{callers, cleaned, fetched, output, Answers};
use crate::{
    case::Case,
    make::case::{self, CLEANINGS},
    model::{identifier, list},
    random::Random,
};
use facets_hub::{tally, Counts, Refusal};

const ROUNDS: usize = 30_000;

/// Asserts that the list, which is the case's body, is cleaned to itself, and only where the output is as long.
fn clean_again(random: &mut Random, case: &Case) {
    let list = &case.body;
    for length in [list.len(), list.len() + 1, list.len() + 2 + random.below(60)] {
        let before = output(random, length);
        let (cleaning, after) = cleaned(case, &before);
        assert_eq!(cleaning, Ok(list.len()), "{case:?}");
        assert_eq!(after[..list.len()], list[..], "{case:?}");
        assert_eq!(after[list.len()..], before[list.len()..], "{case:?}");
    }
    for length in [list.len() - 1, random.below(list.len())] {
        let before = output(random, length);
        assert_eq!(cleaned(case, &before), (Err(Refusal::Full), before), "{case:?}");
    }
}

#[test]
fn a_cleaned_list_decides_and_cleans_like_the_body_it_came_from() {
    let mut random = Random::new(6);
    let mut answers = Answers::default();
    let (mut lists, mut changed, mut empty) = (0, 0, 0);
    for _ in 0..ROUNDS {
        let case = case::cleaning(&mut random, CLEANINGS.len() - 1);
        let (Ok(length), mut list) = cleaned(&case, &[b'#'; 65_536]) else {
            continue;
        };
        list.truncate(length);
        lists += 1;
        changed += usize::from(list != case.body);
        empty += usize::from(list.ends_with(b":[]}]}"));
        let host = identifier::url_host(&case.appid).and_then(|host| String::from_utf8(host).ok());
        let host = host.expect("an HTTPS URL");
        let (record, text) = fetched(&mut random, &host);
        let case = Case { record, text, ..case };
        let again = Case { body: list, ..case.clone() };
        clean_again(&mut random, &again);

        let counts = |case: &Case| tally(&case.appid, case.major, case.minor, &case.body, &case.table);
        let kept = counts(&case).expect("a list").kept;
        assert_eq!(counts(&again), Ok(Counts { kept, ..Counts::default() }), "{case:?}");

        // The entries as they stood in the body, discarded ones too, and as they stand in the list.
        let entries = [&case, &again].map(|case| list::selected(&case.body, case.major, case.minor));
        let entries = entries.into_iter().flat_map(|entries| entries.expect("a list"));
        let entries: Vec<String> = entries.filter_map(|entry| String::from_utf8(entry).ok()).collect();
        let callers = callers(&mut random, &host, &entries.iter().collect::<Vec<_>>());
        answers.alike(&case, &again, &callers);
    }
    println!("{lists} cleaned lists, {changed} unlike their bodies, {empty} empty; {answers:?}");
    assert!(lists >= 10_000 && changed >= 10_000 && empty >= 1_000);
    answers.often(&[3, 4, 5, 101, 104, 105, 106, 107, 108, 114]);
}
