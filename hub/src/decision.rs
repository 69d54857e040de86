//! The decision whether a caller may have the key of an AppID used.

use crate::{ffi, Refusal};

/// What a decision is made of.
#[derive(Clone, Copy, Debug, PartialEq, Eq)]
pub struct Inputs<'a> {
    /// The caller's facet: a web origin or a native identity.
    pub caller: &'a [u8],
    /// The AppID.
    pub appid: &'a [u8],
    /// The wanted version's major number.
    pub major: u16,
    /// The wanted version's minor number.
    pub minor: u16,
    /// The fetch record: up to 8 redirects, then at most one answer.
    pub record: &'a [u8],
    /// The text that the record's Locations are parts of.
    pub text: &'a [u8],
    /// The body of the answer: the trusted facets list.
    pub body: &'a [u8],
    /// The table of public suffix rules.
    pub table: &'a [u8],
}

/// A decision's answer.
#[derive(Clone, Copy, Debug, PartialEq, Eq)]
pub enum Answer {
    /// Allowed: the AppID is no `https://` one and equals the caller.
    Rule1,
    /// Allowed: the AppID is empty.
    Rule2,
    /// Allowed: the caller's host is the AppID's.
    Rule3,
    /// Allowed: the list names the caller.
    Rule4 {
        /// The first matching entry's place among the kept entries, from 0.
        place: u32,
    },
    /// The list is still to be fetched, from [`fetch_location`](crate::fetch_location).
    Fetch,
    /// Refused.
    Refused(Refusal),
}

impl Answer {
    /// Whether the caller may have the key used.
    pub fn allows(self) -> bool {
        !matches!(self, Answer::Fetch | Answer::Refused(_))
    }

    fn from_library(code: u16, place: u32) -> Answer {
        match code {
            1 => Answer::Rule1,
            2 => Answer::Rule2,
            3 => Answer::Rule3,
            4 => Answer::Rule4 { place },
            5 => Answer::Fetch,
            101..=114 => Answer::Refused(Refusal::from_library(u32::from(code) - 100)),
            _ => panic!("the library gave the unknown decision {code}"),
        }
    }
}

/// Decides by document 01's order of rules and refusals.
///
/// ```
/// use facets_hub::{decide, Answer, Inputs, Refusal};
///
/// let mut inputs = Inputs {
///     caller: b"ios:bundle-id:com.acme.app",
///     appid: b"https://example.com/facets",
///     major: 1,
///     minor: 0,
///     record: b"",
///     text: b"",
///     body: b"",
///     table: b"com",
/// };
/// assert_eq!(decide(&inputs), Answer::Fetch);
///
/// // The answer: status 200, right content type seen.
/// inputs.record = &[2, 0, 200, 1];
/// inputs.body = br#"{"trustedFacets":[{"version":{"major":1,"minor":0},
///     "ids":["https://other.example","https://www.example.com","ios:bundle-id:com.acme.app"]}]}"#;
/// assert_eq!(decide(&inputs), Answer::Rule4 { place: 1 });
///
/// inputs.caller = b"ios:bundle-id:com.acme.other";
/// assert_eq!(decide(&inputs), Answer::Refused(Refusal::NotListed));
/// ```
pub fn decide(inputs: &Inputs) -> Answer {
    let mut place = 0;
    let code = decision_code_with_place(inputs, &mut place);
    Answer::from_library(code, place)
}

/// The decision as the library's number: 1 to 4 a rule, 5 fetch, 100 + refusal.
pub fn decision_code(inputs: &Inputs) -> u16 {
    ffi::decide(inputs)
}

/// The decision as the library's number; `place` becomes rule 4's place and stays under any other answer.
pub fn decision_code_with_place(inputs: &Inputs, place: &mut u32) -> u16 {
    ffi::decide_place(inputs, place)
}

#[cfg(test)]
mod tests {
    use super::Answer;
    use crate::Refusal;
    use std::panic;

    #[test]
    fn every_code_of_document_01_is_an_answer() {
        for (code, answer) in [
            (1, Answer::Rule1),
            (2, Answer::Rule2),
            (3, Answer::Rule3),
            (4, Answer::Rule4 { place: 7 }),
            (5, Answer::Fetch),
            (101, Answer::Refused(Refusal::Stranger)),
            (114, Answer::Refused(Refusal::NotListed)),
        ] {
            assert_eq!(Answer::from_library(code, 7), answer);
            assert_eq!(answer.allows(), code <= 4);
        }
        for number in 1..=14 {
            let refusal = Refusal::from_library(u32::from(number));
            assert_eq!(Answer::from_library(100 + number, 0), Answer::Refused(refusal));
        }
    }

    #[test]
    fn an_unknown_code_panics_with_its_number() {
        // Refusals 15 and 16 are other calls'.
        for code in [0, 6, 99, 100, 115, 116, 117, u16::MAX] {
            let panic = panic::catch_unwind(|| Answer::from_library(code, 0)).expect_err("no answer");
            let message = panic.downcast_ref::<String>().expect("a message");
            assert!(message.ends_with(&format!("decision {code}")), "{message}");
        }
    }
}
