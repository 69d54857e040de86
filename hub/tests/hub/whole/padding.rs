//! Accepted bodies with the same kept entries: every call gives the same on both. The label and the fetch
//! location take no body; decision, cleaning and the tally's kept count are compared.

use super::{callers, cleaned, fetched, output, Answers};
use crate::{
    case::Case,
    hand::{body_of, case},
    make::{
        identifier::{host, url},
        json::{Json, Style},
        list::{entries, entry, list, version},
        table::{bad_table, table, table_near},
    },
    model::list::{selected, Judge},
    random::Random,
};
use facets_hub::{tally, Refusal};

const ROUNDS: usize = 20_000;

/// The kept entries in order, with any discarded ones before, between and after them; each cause is counted.
fn padded(
    random: &mut Random,
    judge: Judge,
    host: &str,
    kept: &[String],
    causes: &mut [usize; 5],
) -> Vec<String> {
    let mut padded = kept.to_vec();
    for _ in 0..random.below(8) {
        let entry = entry(random, host);
        if let Err(cause) = judge.judge(entry.as_bytes()) {
            causes[cause] += 1;
            padded.insert(random.below(padded.len() + 1), entry);
        }
    }
    padded
}

/// A body, and in what two such bodies may differ besides the kept entries.
struct Body {
    text: Vec<u8>,
    entries: Vec<String>,
    objects: usize,
    members: usize,
    style: Style,
}

impl Body {
    fn new(random: &mut Random, wanted: (u16, u16), entries: Vec<String>) -> Body {
        let style = Style::any(random);
        let mut list = list(random, wanted, Some(&entries));
        let text = list.write(random, style).into_bytes();
        let (members, objects) = (list.members().len(), list.member("trustedFacets").elements().len());
        Body { text, entries, objects, members, style }
    }

    /// Whether discarded entries, version objects, other members, blanks and escapes differ.
    fn differs(&self, other: &Body) -> [bool; 5] {
        [
            self.entries != other.entries,
            self.objects != other.objects,
            self.members != other.members,
            self.style.blanks != other.style.blanks,
            self.style.escapes != other.style.escapes,
        ]
    }
}

/// Asserts that both bodies clean alike into outputs of these lengths; returns how many were refused.
fn clean_alike(random: &mut Random, one: &Case, other: &Case, lengths: &[usize]) -> usize {
    let refused = lengths.iter().filter(|&&length| {
        let out = output(random, length);
        let cleaning = cleaned(one, &out);
        assert_eq!(cleaned(other, &out), cleaning, "{one:?}\n{other:?}");
        cleaning.0.is_err()
    });
    refused.count()
}

fn kept_count(case: &Case) -> Result<u32, Refusal> {
    tally(&case.appid, case.major, case.minor, &case.body, &case.table).map(|counts| counts.kept)
}

#[test]
fn discarded_entries_and_all_else_in_a_body_change_nothing() {
    let mut random = Random::new(5);
    let mut answers = Answers::default();
    let (mut cleanings, mut refused_cleanings) = (0, 0);
    let (mut causes, mut differences) = ([0; 5], [0; 5]);
    for _ in 0..ROUNDS {
        let host = host(&mut random);
        let (major, minor) = version(&mut random);
        let appid = url(&mut random, &host).into_bytes();
        let table = match random.below(25) {
            0 => bad_table(&mut random),
            1..=12 => table_near(&mut random, &host),
            _ => table(&mut random),
        };
        let judge = Judge { appid: &appid, table: &table };
        let mut kept = entries(&mut random, &host);
        kept.retain(|entry| judge.judge(entry.as_bytes()).is_ok());

        let [one_body, other_body] = [(); 2].map(|()| {
            let entries = padded(&mut random, judge, &host, &kept, &mut causes);
            Body::new(&mut random, (major, minor), entries)
        });
        for (count, differs) in differences.iter_mut().zip(one_body.differs(&other_body)) {
            *count += usize::from(differs);
        }
        for body in [&one_body, &other_body] {
            let entries = selected(&body.text, major, minor).expect("an accepted body");
            assert!(entries.iter().map(Vec::as_slice).eq(body.entries.iter().map(String::as_bytes)));
        }
        let (record, text) = fetched(&mut random, &host);
        let caller = Vec::new();
        let one = Case { caller, appid, major, minor, table, body: one_body.text, record, text };
        let other = Case { body: other_body.text, ..one.clone() };

        let listed: Vec<&String> = one_body.entries.iter().chain(&other_body.entries).collect();
        let callers = callers(&mut random, &host, &listed);
        answers.alike(&one, &other, &callers);

        let length = one.cleaning().list().map_or(50, |list| list.len());
        let lengths = [
            0,
            length - 1,
            length,
            length + 1 + random.below(60),
            // Long enough by the one body, by the other or by both.
            one.body.len().min(other.body.len()),
            one.body.len().max(other.body.len()),
        ];
        refused_cleanings += clean_alike(&mut random, &one, &other, &lengths);
        cleanings += lengths.len();

        assert_eq!(kept_count(&one), kept_count(&other), "{one:?}\n{other:?}");
        assert!(kept_count(&one).map_or(true, |count| count as usize == kept.len()), "{one:?}");
    }
    println!("{ROUNDS} pairs of bodies; {answers:?}");
    println!(
        "pairs unlike in discarded entries, version objects, other members, blanks, escapes: {differences:?}"
    );
    println!(
        "{cleanings} cleanings, {refused_cleanings} refused; discarded for causes 1 to 4: {:?}",
        &causes[1..]
    );
    answers.often(&[3, 4, 5, 101, 102, 104, 105, 106, 107, 108, 113, 114]);
    assert!(differences.iter().all(|&count| count >= 5_000));
    assert!(cleanings - refused_cleanings >= 10_000 && causes[1..].iter().all(|&count| count >= 1_000));
}

#[test]
fn a_full_body_of_discarded_entries_changes_nothing() {
    let kept = ["https://A.example.com:8443/", "ios:bundle-id:com.acme.app", "https://b.example.com"];
    // One for each cause, a deeper rule's among them.
    let long = "https://b.example.com/".to_owned() + &"p".repeat(491);
    let discarded = [
        &long, "http://b.example.com", "https://b.example.com/path", "https://c.b.hosting.example.com",
        "https://example.org", "https://hosting.example.com", "", "ios:bundle-id:",
        "https://user@b.example.com",
    ];
    let quoted = |entries: &[&str]| {
        let entries = entries.iter().map(|entry| Json::text(entry).plain());
        entries.collect::<Vec<String>>().join(",")
    };
    let full = {
        let block = quoted(&discarded);
        let ids = |blocks: usize| {
            let blocks = vec![block.clone(); blocks];
            let parts: Vec<String> =
                kept.iter().flat_map(|entry| [blocks.clone(), vec![quoted(&[entry])]].concat()).collect();
            format!("[{}]", parts.join(","))
        };
        let most = (1..100).rfind(|&blocks| body_of(&ids(blocks)).len() <= 65_536).expect("a full body");
        let mut body = body_of(&ids(most));
        body.resize(65_536, b' ');
        body
    };
    let one = case(&kept);
    let other = Case { body: full, ..one.clone() };
    let callers: Vec<Vec<u8>> =
        kept.iter().chain(&discarded).chain(&["https://x.example.com"]).map(|&entry| entry.into()).collect();
    let mut answers = Answers::default();
    answers.alike(&one, &other, &callers);
    let codes = answers.codes;
    assert_eq!(codes.keys().copied().collect::<Vec<_>>(), [4, 101, 114]);
    assert_eq!(codes[&4], kept.len());
    let length = one.cleaning().list().expect("a list").len();
    let lengths: Vec<usize> = (0..length + 40).collect();
    let refused = clean_alike(&mut Random::new(7), &one, &other, &lengths);
    assert_eq!(refused, length);
    assert_eq!([kept_count(&one), kept_count(&other)], [Ok(3); 2]);
}
