//! Both sides of every bound on the list and on the table beside it, expected values by hand.

use crate::{
    case::Case,
    hand::{body, body_of, case, APP},
};

const NONE: [&str; 0] = [];
const BODY_MAX: usize = 65_536;
const TABLE_MAX: usize = 1_048_576;

#[test]
fn an_entry_has_at_most_512_decoded_bytes() {
    // What a character is written as, and its decoded bytes.
    let characters = [
        ("a", 1),
        ("\u{fc}", 2),
        ("\u{20ac}", 3),
        ("\u{1f511}", 4),
        (r"\u0061", 1),
        (r"\u0000", 1),
        (r"\n", 1),
        (r"\u00fc", 2),
        (r"\u20AC", 3),
        (r"\uD83d\udD11", 4),
    ];
    for length in [511, 512, 513, 514, 515, 516, 517] {
        for (written, bytes) in characters {
            for (start, cause) in
                [("", 2), ("https://", 3), ("ios:bundle-id:", 3), ("https://a.example.com/", 3)]
            {
                let (count, rest) = ((length - start.len()) / bytes, (length - start.len()) % bytes);
                let entry = format!("[\"{start}{}{}\"]", written.repeat(count), "z".repeat(rest));
                let mut counts = [0; 5];
                counts[if length > 512 { 1 } else { cause }] = 1;
                Case { body: body_of(&entry), ..case(&NONE) }.counts(counts);
            }
        }
    }
    // A long entry between kept ones, and one as long as a body allows.
    case(&[APP, &"a".repeat(513), APP]).counts([2, 1, 0, 0, 0]);
    let most = BODY_MAX - body(&[APP, ""]).len();
    case(&[APP, &"a".repeat(most)]).counts([1, 1, 0, 0, 0]);
    case(&[APP, &"a".repeat(most + 1)]).refused(9);
}

#[test]
fn at_most_16_arrays_and_objects_are_open_together() {
    let arrays = |depth: usize| "[".repeat(depth) + &"]".repeat(depth);
    let objects = |depth: usize| "{\"a\":".repeat(depth) + "0" + &"}".repeat(depth);
    let mixed = |depth: usize| {
        let (open, shut): (Vec<&str>, Vec<&str>) =
            (0..depth).map(|level| if level % 2 == 0 { ("[1,", "]") } else { ("{\"a\":", "}") }).unzip();
        open.concat() + "null" + &shut.into_iter().rev().collect::<String>()
    };
    for depth in [1, 15, 16, 17, 18, 100, 20_000] {
        for value in [arrays(depth), objects(depth), mixed(depth)] {
            if value.len() > BODY_MAX {
                continue;
            }
            // Alone; any readable value but an object with `trustedFacets` is misshapen.
            let whole = Case { body: value.clone().into_bytes(), ..case(&NONE) };
            whole.refused(if depth <= 16 { 11 } else { 10 });
            // With two of them, one after the other, no more are open together.
            let twice = format!("[{value},{value}]");
            let whole = Case { body: twice.into_bytes(), ..case(&NONE) };
            if depth < 100 {
                whole.refused(if depth <= 15 { 11 } else { 10 });
            }
        }
    }
    for inner in [11, 12, 13, 14, 15, 16] {
        for value in [arrays(inner), objects(inner), mixed(inner)] {
            // Skipped members: of the list (1 open), of an object (3 open), of a version (4 open).
            let list = format!(
                r#"{{"x":{value},"trustedFacets":[{{"version":{{"major":1,"minor":0}},"ids":[]}}]}}"#
            );
            let object = format!(
                r#"{{"trustedFacets":[{{"x":{value},"version":{{"major":1,"minor":0}},"ids":[]}}]}}"#
            );
            let version = format!(
                r#"{{"trustedFacets":[{{"version":{{"major":1,"x":{value},"minor":0}},"ids":[]}}]}}"#
            );
            for (body, open) in [(list, 1), (object, 3), (version, 4)] {
                let case = Case { body: body.into_bytes(), ..case(&NONE) };
                if open + inner <= 16 {
                    case.counts([0; 5]);
                } else {
                    case.refused(10);
                }
            }
        }
    }
}

#[test]
fn a_body_has_at_most_65536_bytes() {
    let list = body(&[APP]);
    for (length, fits) in
        [(BODY_MAX - 1, true), (BODY_MAX, true), (BODY_MAX + 1, false), (BODY_MAX + 2, false)]
    {
        let blanks = vec![b' '; length - list.len()];
        let member = format!("{{\"x\":\"{}\",", "y".repeat(length - list.len() - 7));
        for body in [
            [&list[..], &blanks].concat(),
            [&blanks[..], &list].concat(),
            [member.as_bytes(), &list[1..]].concat(),
        ] {
            assert_eq!(body.len(), length);
            let case = Case { body, ..case(&NONE) };
            if fits {
                case.listed_at(0);
                case.counts([1, 0, 0, 0, 0]);
            } else {
                case.refused(9);
            }
        }
        // Length is judged before all else.
        let unreadable = Case { body: vec![b'x'; length], ..case(&NONE) };
        unreadable.refused(if fits { 10 } else { 9 });
    }
}

#[test]
fn as_many_entries_as_a_body_holds() {
    let shortest = "ios:bundle-id:a";
    let count = (BODY_MAX - body(&NONE).len() + 1) / (shortest.len() + 3);
    let mut ids = vec![shortest; count];
    ids[count - 1] = "ios:bundle-id:b";
    let full = Case { caller: b"ios:bundle-id:b".into(), ..case(&ids) };
    assert!(full.body.len() <= BODY_MAX && full.body.len() > BODY_MAX - 18);
    full.listed_at(count as u32 - 1);
    full.counts([count as u32, 0, 0, 0, 0]);
    // Entries of two bytes, all discarded.
    let empty = vec![""; (BODY_MAX - body(&NONE).len()) / 3];
    let discarded = case(&empty);
    discarded.counts([0, 0, empty.len() as u32, 0, 0]);
}

#[test]
fn a_table_has_at_most_1048576_bytes() {
    let ids = ["https://a.example.com", APP];
    for (length, good) in [(TABLE_MAX, true), (TABLE_MAX + 1, false)] {
        let mut table = b"example.com\n".to_vec();
        table.splice(0..0, vec![b'\n'; length - table.len()]);
        let case = Case { table, ..case(&ids) };
        if good {
            // The table's last rule makes a.example.com a label of its own, unlike www.example.com's.
            case.counts([1, 0, 0, 0, 1]);
            case.listed_at(0);
        } else {
            case.refused(13);
        }
    }
}
