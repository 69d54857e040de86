//! Cleaned lists: what of a trusted facets list is kept, in normal form.

use crate::{ffi, Refusal};

/// Writes the cleaned list to the beginning of `out` and gives its length; the bytes beyond it remain.
///
/// The list holds the normal forms of the entries kept for this AppID, version, body and table. A refusal
/// changes no byte of `out`.
///
/// ```
/// let body = br#"{"trustedFacets":[{"version":{"major":1,"minor":0},
///     "ids":["https://Fido.example.com:443/","http://www.example.com"]}]}"#;
/// let mut out = [0; 200];
/// let length = facets_hub::clean(b"https://example.com/facets", 1, 0, body, b"com", &mut out).unwrap();
/// let list = br#"{"trustedFacets":[{"version":{"major":1,"minor":0},"ids":["https://fido.example.com"]}]}"#;
/// assert_eq!(&out[..length], list);
/// ```
pub fn clean(
    appid: &[u8],
    major: u16,
    minor: u16,
    body: &[u8],
    table: &[u8],
    out: &mut [u8],
) -> Result<usize, Refusal> {
    result(ffi::clean(appid, major, minor, body, table, out))
}

fn result(cleaned: ffi::Cleaned) -> Result<usize, Refusal> {
    match (cleaned.refusal, cleaned.len) {
        (0, length) => Ok(length as usize),
        (number, 0) => Err(Refusal::from_library(number)),
        (number, length) => panic!("the library gave refusal {number} with the length {length}"),
    }
}

#[cfg(test)]
mod tests {
    use super::result;
    use crate::{ffi::Cleaned, Refusal};

    #[test]
    fn a_length_or_a_refusal() {
        assert_eq!(result(Cleaned { refusal: 0, len: 65_536 }), Ok(65_536));
        assert_eq!(result(Cleaned { refusal: 15, len: 0 }), Err(Refusal::Full));
    }

    #[test]
    #[should_panic(expected = "refusal 15 with the length 1")]
    fn a_refusal_carries_no_length() {
        let _ = result(Cleaned { refusal: 15, len: 1 });
    }
}
