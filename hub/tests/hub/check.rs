//! The library's calls beside the model's, every output of theirs.

use crate::{
    case::{shown, Case},
    model::{
        decision::{self, Answer, Decision},
        head::{self, Head},
        Refused,
    },
};
use facets_hub::{clean, read_head, tally, Counts};
use facets_hub::{decide, decision_code, decision_code_with_place, fetch_location, Refusal};

/// What the place is before a call.
const UNCHANGED: u32 = 0xDEAD_BEEF;

/// Asserts that the library decides like the model and gives its fetch location; returns the decision.
pub fn decision(case: &Case) -> Decision {
    let inputs = case.decision();
    let expected = decision::decide(&inputs);
    let code = decision::code(expected);
    assert_eq!(decision_code(&inputs), code, "the code\n{case:?}");
    let mut place = UNCHANGED;
    assert_eq!(decision_code_with_place(&inputs, &mut place), code, "the code beside a place\n{case:?}");
    let expected_place = match expected {
        Ok(Answer::Listed(place)) => place,
        _ => UNCHANGED,
    };
    assert_eq!(place, expected_place, "the place\n{case:?}");
    assert_eq!(decide(&inputs), answer(expected), "the answer\n{case:?}");
    let location = fetch_location(&case.caller, &case.appid, &case.record, &case.text);
    assert_eq!(shown(location), shown(&decision::fetch_location(&inputs)), "the location\n{case:?}");
    expected
}

fn answer(decision: Decision) -> facets_hub::Answer {
    use facets_hub::Answer as Hub;
    match decision {
        Ok(Answer::Rule(1)) => Hub::Rule1,
        Ok(Answer::Rule(2)) => Hub::Rule2,
        Ok(Answer::Rule(_)) => Hub::Rule3,
        Ok(Answer::Listed(place)) => Hub::Rule4 { place },
        Ok(Answer::Fetch) => Hub::Fetch,
        Err(number) => Hub::Refused(refusal(number)),
    }
}

fn refusal(number: Refused) -> Refusal {
    Refusal::ALL[usize::from(number) - 1]
}

/// Asserts that the library cleans into these bytes like the model, byte for byte; returns length or refusal.
pub fn cleaning(case: &Case, out: &[u8]) -> Result<usize, Refused> {
    let Case { appid, major, minor, body, table, .. } = case;
    let (mut expected_out, mut given_out) = (out.to_vec(), out.to_vec());
    let expected = case.cleaning().clean(&mut expected_out);
    let given = clean(appid, *major, *minor, body, table, &mut given_out);
    assert_eq!(given, expected.map_err(refusal), "into {} bytes\n{case:?}", out.len());
    assert_eq!(shown(&given_out), shown(&expected_out), "the output\n{case:?}");
    assert!(given_out == expected_out, "the output past its first bytes\n{case:?}");
    expected
}

/// Asserts that the library counts like the model; returns the counts, kept ones first, or the refusal.
pub fn tallying(case: &Case) -> Result<[u32; 5], Refused> {
    let Case { appid, major, minor, body, table, .. } = case;
    let expected = case.cleaning().tally();
    let counts = |[kept, too_long, other_scheme, not_facet, other_label]: [u32; 5]| Counts {
        kept,
        too_long,
        other_scheme,
        not_facet,
        other_label,
    };
    let given = tally(appid, *major, *minor, body, table);
    assert_eq!(given, expected.map(counts).map_err(refusal), "{case:?}");
    expected
}

/// Asserts that the library reads a head into these outputs like the model, byte for byte; returns what the head
/// says, or the refusal.
pub fn head(head: &[u8], start: u32, item: &[u8], text: &[u8]) -> Result<Head, Refused> {
    let (mut expected_item, mut expected_text) = (item.to_vec(), text.to_vec());
    let (mut given_item, mut given_text) = (item.to_vec(), text.to_vec());
    let expected = head::write(head, start, &mut expected_item, &mut expected_text);
    let lengths = expected.as_ref().map(|head| match head {
        Head::Redirect(redirect) => facets_hub::Head::Redirect { location: redirect.location.len() },
        Head::Answer(_) => facets_hub::Head::Answer,
    });
    let given = read_head(head, start, &mut given_item, &mut given_text);
    let inputs =
        || format!("start {start}, into {} and {} bytes, head {}", item.len(), text.len(), shown(head));
    assert_eq!(given, lengths.map_err(|number| refusal(*number)), "{}", inputs());
    assert_eq!(given_item, expected_item, "the item's output, {}", inputs());
    assert_eq!(shown(&given_text), shown(&expected_text), "the Location's output, {}", inputs());
    assert!(given_text == expected_text, "the Location's output past its first bytes, {}", inputs());
    expected
}
