//! Generated and damaged hosts and tables beside the model.

use super::{
    check,
    model::{self, Answer},
};
use crate::{
    make::table::{damage, join, labels, line, BAD_LINES},
    random::Random,
};
use std::collections::BTreeMap;

const ROUNDS: usize = 200_000;

/// A host, every other time one that ends in the name of one of the lines.
fn host(random: &mut Random, lines: &[Vec<u8>]) -> Vec<u8> {
    let mut host = labels(random, 1, 4);
    if random.chance(50) && !lines.is_empty() {
        let line = &lines[random.below(lines.len())];
        let name = line.strip_prefix(b"!").unwrap_or(line);
        let name = name.strip_prefix(b"*.").unwrap_or(name);
        host = if random.chance(20) { name.to_vec() } else { [&host[..], b".", name].concat() };
    }
    if random.chance(10) {
        damage(random, &mut host);
    }
    host
}

/// The class an answer is counted under.
fn class(answer: &Answer, bad_line: Option<&[u8]>) -> String {
    match (answer, bad_line) {
        (Answer::Label(_, kind), _) => format!("label by {kind:?}"),
        (Answer::BadTable, Some(line)) => format!("bad table by {}", line.escape_ascii()),
        (Answer::BadTable, None) => "bad table by damage".to_owned(),
        (none, _) => format!("{none:?}"),
    }
}

#[test]
fn generated_hosts_and_tables_beside_the_model() {
    let mut random = Random::new(2);
    let mut classes: BTreeMap<String, usize> = BTreeMap::new();
    for _ in 0..ROUNDS {
        let mut lines: Vec<Vec<u8>> = (0..random.below(9)).map(|_| line(&mut random)).collect();
        let host = host(&mut random, &lines);
        let bad_line = random.chance(20).then(|| random.pick(&BAD_LINES));
        if let Some(bad) = bad_line {
            lines.insert(random.below(lines.len() + 1), bad.to_vec());
        }
        let table = join(&mut random, &lines);
        let answer = model::private_label(&host, &table);
        check(&host, &table, answer.part());
        *classes.entry(class(&answer, bad_line)).or_default() += 1;
    }
    println!("{ROUNDS} generated hosts and tables: {classes:#?}");
    // Five kinds of rule give a label, four a suffix that is the whole host (no exception can); a malformed
    // host, an address, damage and each bad line.
    assert_eq!(classes.len(), 5 + 4 + 2 + 1 + BAD_LINES.len());
    let rare: Vec<_> = classes.iter().filter(|(_, &count)| count < 1_000).collect();
    assert!(rare.is_empty(), "fewer than 1,000 of {rare:?}");
}
