//! Generated and damaged inputs beside the model.

use crate::{
    check,
    make::case::{self, CLEANINGS},
    model::{
        cleaning::Inputs,
        identifier::{facet, url_host, Facet},
        list, suffix, Refused,
    },
    random::Random,
};
use std::collections::BTreeMap;

const ROUNDS: usize = 200_000;

/// How long an output is, beside the list.
#[derive(Clone, Copy, Debug, PartialEq, Eq, PartialOrd, Ord)]
enum Output {
    Empty,
    OneByteShort,
    Short,
    Exact,
    Longer,
    /// One byte less than the body has.
    LessThanBody,
    /// As long as the body, by which a list always fits.
    AsBody,
}

/// An output of any bytes, its length chosen by the length of the list, where there is one.
fn output(random: &mut Random, inputs: &Inputs) -> (Output, Vec<u8>) {
    use Output::{AsBody, Empty, Exact, LessThanBody, Longer, OneByteShort, Short};
    let list = inputs.list().map_or(60, |list| list.len());
    let output =
        [Empty, OneByteShort, Short, Exact, Exact, Longer, Longer, LessThanBody, AsBody][random.below(9)];
    let length = match output {
        Empty => 0,
        OneByteShort => list - 1,
        Short => random.below(list),
        Exact => list,
        Longer => list + 1 + random.below(40),
        LessThanBody => inputs.body.len().saturating_sub(1),
        AsBody => inputs.body.len(),
    };
    (output, (0..length).map(|_| random.next() as u8).collect())
}

/// The entries whose host ends in the AppID's private label and yet has another one, by a deeper rule.
fn deeper(inputs: &Inputs) -> usize {
    let label = |host: &[u8]| suffix::private_label(host, inputs.table).part().to_ascii_lowercase();
    let Some(own) = url_host(inputs.appid).map(|host| label(&host)).filter(|own| !own.is_empty()) else {
        return 0;
    };
    let ending = [b".", &own[..]].concat();
    let deeper = |entry: &Vec<u8>| match facet(entry) {
        Some(Facet::Web(web)) => web.host.to_ascii_lowercase().ends_with(&ending) && label(&web.host) != own,
        _ => false,
    };
    let entries = list::selected(inputs.body, inputs.major, inputs.minor).unwrap_or_default();
    entries.into_iter().filter(deeper).count()
}

#[test]
fn generated_cleanings_and_tallies_beside_the_model() {
    let mut random = Random::new(4);
    let mut cleanings: BTreeMap<(Refused, Option<Output>), usize> = BTreeMap::new();
    let mut tallies: BTreeMap<Refused, usize> = BTreeMap::new();
    let (mut counts, mut deep, mut empty) = ([0; 5], 0, 0);
    for round in 0..ROUNDS {
        let last = CLEANINGS.len() - 1;
        let wanted = if round % 2 == 0 { random.below(CLEANINGS.len()) } else { last };
        let case = case::cleaning(&mut random, wanted);
        let (output, out) = output(&mut random, &case.cleaning());
        let cleaned = check::cleaning(&case, &out);
        let fits = cleaned.map_or(true, |length| length <= case.body.len());
        assert!(fits, "the list is longer than the body\n{case:?}");
        let refusal = cleaned.err().unwrap_or(0);
        // Under the refusals that come before the list the output's length means nothing.
        let output = (refusal == 0 || refusal == 15).then_some(output);
        *cleanings.entry((refusal, output)).or_default() += 1;
        let tally = check::tallying(&case);
        *tallies.entry(tally.err().unwrap_or(0)).or_default() += 1;
        for (sum, count) in counts.iter_mut().zip(tally.unwrap_or_default()) {
            *sum += count;
        }
        empty += usize::from(cleaned.is_ok() && tally.is_ok_and(|counts| counts[0] == 0));
        deep += if tally.is_ok() { deeper(&case.cleaning()) } else { 0 };
    }
    println!("{ROUNDS} generated cleanings, by refusal and output: {cleanings:?}");
    println!("{ROUNDS} generated tallies, by refusal: {tallies:?}; kept and causes 1 to 4: {counts:?}");
    println!("{empty} empty lists cleaned; {deep} entries end in the AppID's label and have another by a deeper rule");
    // A list that is as long as its body is rare.
    cleanings.remove(&(15, Some(Output::LessThanBody)));
    // Refusals 2, 3, 9 to 13; 15 into three kinds of output and success into four.
    assert_eq!(cleanings.len(), 7 + 3 + 4);
    assert_eq!(tallies.len(), 7 + 1);
    let all = cleanings.values().chain(tallies.values()).copied().chain(counts.map(|count| count as usize));
    let all = all.chain([empty, deep]);
    assert!(all.min() >= Some(1_000), "fewer than 1,000 of one");
}
