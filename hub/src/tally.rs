//! The tally: how many entries of a trusted facets list are kept, and why the others are not.

use crate::{ffi, Refusal};

/// How many entries are kept, and how many discarded for each cause; their total is the number of entries.
#[derive(Clone, Copy, Debug, Default, PartialEq, Eq)]
pub struct Counts {
    /// Entries kept.
    pub kept: u32,
    /// Cause 1: longer than 512 bytes.
    pub too_long: u32,
    /// Cause 2: beginning with none of `https://` and the two native prefixes.
    pub other_scheme: u32,
    /// Cause 3: not a facet.
    pub not_facet: u32,
    /// Cause 4: a web origin whose private label is not the AppID's.
    pub other_label: u32,
}

/// Counts the selected entries for this AppID, version, body and table.
///
/// ```
/// let body = br#"{"trustedFacets":[{"version":{"major":1,"minor":0},
///     "ids":["https://www.example.com","http://www.example.com","https://other.com"]}]}"#;
/// let counts = facets_hub::tally(b"https://example.com/facets", 1, 0, body, b"com").unwrap();
/// assert_eq!((counts.kept, counts.other_scheme, counts.other_label), (1, 1, 1));
/// ```
pub fn tally(appid: &[u8], major: u16, minor: u16, body: &[u8], table: &[u8]) -> Result<Counts, Refusal> {
    result(ffi::tally(appid, major, minor, body, table))
}

fn result(tally: ffi::Tally) -> Result<Counts, Refusal> {
    let ffi::Tally { refusal, kept, too_long, other_scheme, not_facet, other_label } = tally;
    let counts = Counts { kept, too_long, other_scheme, not_facet, other_label };
    match refusal {
        0 => Ok(counts),
        number if counts == Counts::default() => Err(Refusal::from_library(number)),
        number => panic!("the library gave refusal {number} with {counts:?}"),
    }
}

#[cfg(test)]
mod tests {
    use super::{result, Counts};
    use crate::{ffi::Tally, Refusal};

    const NONE: Tally =
        Tally { refusal: 0, kept: 0, too_long: 0, other_scheme: 0, not_facet: 0, other_label: 0 };

    #[test]
    fn counts_or_a_refusal() {
        let given = Tally { kept: 1, too_long: 2, other_scheme: 3, not_facet: 4, other_label: 5, ..NONE };
        let counts = Counts { kept: 1, too_long: 2, other_scheme: 3, not_facet: 4, other_label: 5 };
        assert_eq!(result(given), Ok(counts));
        assert_eq!(result(Tally { refusal: 12, ..NONE }), Err(Refusal::NoVersion));
    }

    #[test]
    #[should_panic(expected = "refusal 12 with Counts")]
    fn a_refusal_carries_no_counts() {
        let _ = result(Tally { refusal: 12, other_label: 1, ..NONE });
    }
}
