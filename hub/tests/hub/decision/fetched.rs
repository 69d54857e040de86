//! Fetch records and fetch locations, both sides of each bound, by hand.

use crate::{
    case::Case,
    hand::{case, APP},
    make::record::{answer, redirect},
};
use facets_hub::fetch_location;

const URL: &str = "https://b.example/f";
const LENGTH: u16 = URL.len() as u16;

/// The good case with this record and text; its list allows the caller.
fn fetched(record: &[u8], text: &str) -> Case {
    Case { record: record.to_vec(), text: text.into(), ..case(&[APP]) }
}

fn hop() -> Vec<u8> {
    redirect(302, 1, 0, LENGTH)
}

/// Asserts fetch, and from where.
#[track_caller]
fn fetches(case: &Case, from: &str) {
    case.decides(5);
    let location = fetch_location(&case.caller, &case.appid, &case.record, &case.text);
    assert_eq!(location.escape_ascii().to_string(), from);
}

#[test]
fn at_most_8_redirects() {
    for count in 0..=12 {
        let hops = hop().repeat(count);
        let answered = [&hops[..], &answer(200, 1)].concat();
        fetched(&answered, URL).decides(if count <= 8 { 4 } else { 104 });
        if count <= 8 {
            fetches(&fetched(&hops, URL), if count == 0 { "https://www.example.com/appID" } else { URL });
        } else {
            fetched(&hops, URL).decides(104);
        }
    }
}

#[test]
fn a_redirects_status_is_from_300_to_399() {
    for (status, good) in [
        (0, false),
        (200, false),
        (299, false),
        (300, true),
        (301, true),
        (398, true),
        (399, true),
        (400, false),
        (300 + 256, false),
        (65535, false),
    ] {
        fetched(&redirect(status, 1, 0, LENGTH), URL).decides(if good { 5 } else { 104 });
        let second = [hop(), redirect(status, 1, 0, LENGTH), answer(200, 1)].concat();
        fetched(&second, URL).decides(if good { 4 } else { 104 });
    }
}

#[test]
fn an_answer_with_any_status_is_an_answer() {
    for status in [0, 199, 201, 299, 300, 302, 399, 400, 456, 65535] {
        for seen in [0, 1] {
            fetched(&answer(status, seen), "").decides(107);
        }
    }
    fetched(&answer(200, 0), "").decides(108);
    fetched(&answer(200, 1), "").decides(4);
}

#[test]
fn header_and_type_are_0_or_1() {
    for seen in 0..=255 {
        let header = [104, 105, 5][usize::from(seen == 0) + 2 * usize::from(seen == 1)];
        fetched(&redirect(302, seen, 0, LENGTH), URL).decides(header);
        let kind = [104, 108, 4][usize::from(seen == 0) + 2 * usize::from(seen == 1)];
        fetched(&answer(200, seen), "").decides(kind);
    }
}

#[test]
fn kinds_other_than_1_and_2_are_bad() {
    for kind in (0..=255).filter(|kind| ![1, 2].contains(kind)) {
        for item in [vec![kind], [&[kind], &hop()[1..]].concat(), [&[kind], &answer(200, 1)[1..]].concat()] {
            fetched(&item, URL).decides(104);
            fetched(&[hop(), item.clone()].concat(), URL).decides(104);
            fetched(&[item, answer(200, 1)].concat(), URL).decides(104);
        }
    }
}

#[test]
fn items_cut_short_or_followed_by_more_are_bad() {
    let whole = [hop(), hop(), answer(200, 1)].concat();
    for length in 0..whole.len() {
        fetched(&whole[..length], URL).decides(if length % 8 == 0 { 5 } else { 104 });
    }
    for more in [vec![0], vec![1], answer(200, 1), hop(), [hop(), answer(200, 1)].concat()] {
        fetched(&[whole.clone(), more].concat(), URL).decides(104);
    }
}

#[test]
fn a_location_ends_at_the_texts_end_at_last() {
    let text = format!("x{URL}");
    for (start, length, code) in [
        (1, LENGTH, 5),
        (1, LENGTH + 1, 104),
        (2, LENGTH, 104),
        (2, LENGTH - 1, 106),
        (0, LENGTH + 1, 106),
        (1 + LENGTH, 0, 106),
        (2 + LENGTH, 0, 104),
        (0, 0, 106),
        (65535, 0, 104),
        (0, 65535, 104),
        (65535, 65535, 104),
        (65535, 2, 104),
    ] {
        fetched(&redirect(302, 1, start, length), &text).decides(code);
        // With the header not seen, 5 comes before 6, and 4 before both.
        let open = if code == 104 { 104 } else { 105 };
        fetched(&redirect(302, 0, start, length), &text).decides(open);
    }
    fetched(&redirect(302, 1, 0, 0), "").decides(106);
    fetched(&redirect(302, 1, 1, 0), "").decides(104);
    fetched(&redirect(302, 1, 0, 1), "").decides(104);
    // A start and a length that pass 65,535 together, in a text long enough.
    let long = "a".repeat(65_535) + URL;
    fetches(&fetched(&redirect(302, 1, 65535, LENGTH), &long), URL);
    fetched(&redirect(302, 1, 65535, LENGTH + 1), &long).decides(104);
    let long = "a".repeat(131_070);
    fetched(&redirect(302, 1, 65535, 65535), &long).decides(106);
    fetched(&redirect(302, 1, 65535, 65535), &long[1..]).decides(104);
}

#[test]
fn the_whole_record_is_judged_before_any_hop() {
    let open = redirect(302, 0, 0, LENGTH);
    fetched(&[open.clone(), vec![0]].concat(), URL).decides(104);
    fetched(&[open.clone(), redirect(302, 1, 0, LENGTH + 1)].concat(), URL).decides(104);
    fetched(&[open.clone(), answer(200, 2)].concat(), URL).decides(104);
    fetched(&[open, hop().repeat(8)].concat(), URL).decides(104);
}

#[test]
fn hop_by_hop_5_comes_before_6() {
    let (good, open, bad) = (hop(), redirect(302, 0, 0, LENGTH), redirect(302, 1, 1, 5));
    let both = redirect(302, 0, 1, 5);
    for (hops, code) in [
        (vec![&good, &open, &bad], 105),
        (vec![&good, &bad, &open], 106),
        (vec![&bad, &good, &good], 106),
        (vec![&good, &good, &open], 105),
        (vec![&good, &both], 105),
        (vec![&bad, &both], 106),
    ] {
        let hops: Vec<u8> = hops.into_iter().flatten().copied().collect();
        fetched(&hops, URL).decides(code);
        // Before the answer is looked at.
        fetched(&[hops, answer(404, 0)].concat(), URL).decides(code);
    }
}

#[test]
fn the_location_is_the_last_redirects_as_it_stands() {
    let text = "HTTPS://First.example/ https://second.example:8443?x";
    let (first, second) = (redirect(301, 1, 0, 22), redirect(399, 1, 23, 29));
    fetches(&fetched(&[first.clone(), second.clone()].concat(), text), "https://second.example:8443?x");
    fetches(&fetched(&[second.clone(), first.clone()].concat(), text), "HTTPS://First.example/");
    fetches(&fetched(&[second.clone(), first, second].concat(), text), "https://second.example:8443?x");
    let appid = "hTTps://WWW.Example.com:1?y";
    fetches(&Case { appid: appid.into(), ..fetched(b"", text) }, appid);
}

#[test]
fn there_is_no_location_unless_the_decision_is_fetch() {
    let location = |case: &Case, code: u16| {
        case.decides(code);
        fetch_location(&case.caller, &case.appid, &case.record, &case.text).to_vec()
    };
    let base = fetched(&hop(), URL);
    for (case, code) in [
        (Case { caller: b"x".into(), ..base.clone() }, 101),
        (Case { caller: b"https://www.example.com".into(), ..base.clone() }, 3),
        (Case { appid: Vec::new(), ..base.clone() }, 2),
        (Case { appid: APP.into(), ..base.clone() }, 1),
        (Case { appid: b"x".into(), ..base.clone() }, 103),
        (Case { appid: b"https://".into(), ..base.clone() }, 102),
        (Case { text: Vec::new(), ..base.clone() }, 104),
        (fetched(&redirect(302, 0, 0, LENGTH), URL), 105),
        (fetched(&redirect(302, 1, 0, 8), URL), 106),
        (fetched(&[hop(), answer(404, 1)].concat(), URL), 107),
        (fetched(&[hop(), answer(200, 0)].concat(), URL), 108),
        (fetched(&[hop(), answer(200, 1)].concat(), URL), 4),
    ] {
        assert_eq!(location(&case, code), b"");
    }
    // Body and table are not looked at before the answer.
    fetches(&Case { body: b"x".into(), table: b"-".into(), ..base }, URL);
}
