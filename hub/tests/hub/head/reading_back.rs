//! Records put together from heads: where the text holds a Location at its start, the record reader reads back just
//! what the head says.

use crate::{
    case::Case,
    check, hand,
    make::{
        head::{answer, head, location, redirect_to},
        identifier::{host, url},
    },
    model::{
        decision::code,
        head::{read, Head},
        record::{self, Record},
    },
    random::Random,
};
use facets_hub::{fetch_location, read_head, Refusal};
use std::collections::BTreeMap;

const ROUNDS: usize = 40_000;

/// A record that is put together head by head, its text, and what the heads say.
#[derive(Default)]
struct Fetched {
    record: Vec<u8>,
    text: Vec<u8>,
    said: Record,
}

impl Fetched {
    /// Reads a head made to say this and appends its item and its Location; false where the Location's start is too
    /// far.
    fn append(&mut self, random: &mut Random, says: Head) -> bool {
        let head = head(random, &says);
        assert_eq!(read(&head).as_ref(), Some(&says), "{}", head.escape_ascii());
        let (mut item, mut location) = ([0xEE; 8], vec![0xEE; head.len()]);
        let read = match read_head(&head, self.text.len() as u32, &mut item, &mut location) {
            Ok(read) => read,
            Err(refusal) => {
                let far = matches!(says, Head::Redirect(_)) && self.text.len() > 65_535;
                assert!(refusal == Refusal::Full && far, "{refusal}");
                return false;
            }
        };
        self.record.extend(&item[..read.item_len()]);
        self.text.extend(&location[..read.location_len()]);
        match says {
            Head::Redirect(redirect) => self.said.redirects.push(redirect),
            Head::Answer(answer) => self.said.answer = Some(answer),
        }
        true
    }
}

/// Bytes that stand between the Locations, now and then so many that the next start is just in reach or is not.
fn between(random: &mut Random, text: &mut Vec<u8>) {
    match random.below(60) {
        0 => {
            let start = 65_533 + random.below(4);
            text.resize(text.len().max(start), b'.');
        }
        1..=19 => text.extend(random.pick(&[&b" "[..], b"https://", b"\xff\0", b"\r\n", b"/more"])),
        _ => {}
    }
}

/// Up to 8 redirects, then at most one answer; mostly such as lead to the list.
fn fetched(random: &mut Random, far: &mut usize) -> Fetched {
    let mut fetched = Fetched::default();
    let careful = random.chance(70);
    for _ in 0..random.below(9) {
        between(random, &mut fetched.text);
        let host = host(random);
        let odd = !careful && random.chance(30);
        let location = if odd { location(random) } else { url(random, &host).into_bytes() };
        let authorized = careful || random.chance(85);
        let says = redirect_to(random, authorized, location);
        *far += usize::from(!fetched.append(random, says));
    }
    between(random, &mut fetched.text);
    if random.chance(70) {
        let right = random.chance(80);
        let says = answer(random, right);
        assert!(fetched.append(random, says), "an answer has no start");
    }
    fetched
}

#[test]
fn records_of_heads_are_read_back() {
    let mut random = Random::new(11);
    let mut codes: BTreeMap<u16, usize> = BTreeMap::new();
    let (mut redirects, mut far) = ([0; 9], 0);
    for _ in 0..ROUNDS {
        let Fetched { record, text, said } = fetched(&mut random, &mut far);
        let case = Case { record, text, ..hand::case(&[hand::APP]) };
        assert_eq!(record::read(&case.record, &case.text).as_ref(), Some(&said), "{case:?}");
        let decided = code(check::decision(&case));
        *codes.entry(decided).or_default() += 1;
        redirects[said.redirects.len()] += 1;
        if decided == 5 {
            let last = said.redirects.last().map_or(&case.appid, |redirect| &redirect.location);
            assert_eq!(fetch_location(&case.caller, &case.appid, &case.record, &case.text), last);
        }
    }
    println!(
        "{ROUNDS} records of heads: decisions {codes:?}, by redirects {redirects:?}, {far} starts too far"
    );
    for code in [4, 5, 105, 106, 107, 108] {
        assert!(codes.get(&code) >= Some(&1_000), "decisions {code}");
    }
    assert!(redirects.iter().all(|&count| count >= 1_000) && far >= 1_000);
}
