//! Response heads: what a raw head puts into a fetch record.

use crate::{ffi, Refusal};

/// What a response head is in a fetch record, and how long what it wrote is.
#[derive(Clone, Copy, Debug, PartialEq, Eq)]
pub enum Head {
    /// A redirect: a status from 300 to 399. Its item has 8 bytes.
    Redirect {
        /// The Location's length.
        location: usize,
    },
    /// An answer: any other status. Its item has 4 bytes, and there is no Location.
    Answer,
}

impl Head {
    /// The item's length.
    pub fn item_len(self) -> usize {
        match self {
            Head::Redirect { .. } => 8,
            Head::Answer => 4,
        }
    }

    /// The Location's length; 0 for an answer.
    pub fn location_len(self) -> usize {
        match self {
            Head::Redirect { location } => location,
            Head::Answer => 0,
        }
    }
}

/// Writes the record item of a response head to the beginning of `item`, and its Location to the beginning of
/// `text`; the bytes beyond them remain.
///
/// The head is one of RFC 9112: status line, field lines, each with its CRLF, and the empty line last; at most
/// 8,192 bytes. `start` is where the Location is going to stand in the record's text. An answer asks nothing of
/// it and writes nothing to `text`. A refusal changes no byte of either output: [`BadHead`](Refusal::BadHead), then
/// [`Full`](Refusal::Full). Outputs of 8 and 8,192 bytes are long enough for every head.
///
/// A record is put together head by head: append the item to the record, and the Location to the text, whose
/// length before that is `start`.
///
/// ```
/// use facets_hub::{decide, fetch_location, read_head, Answer, Head, Inputs, Refusal};
///
/// fn append(head: &[u8], record: &mut Vec<u8>, text: &mut Vec<u8>) -> Result<Head, Refusal> {
///     let (mut item, mut location) = ([0; 8], [0; 8192]);
///     let start = u32::try_from(text.len()).unwrap_or(u32::MAX);
///     let read = read_head(head, start, &mut item, &mut location)?;
///     record.extend(&item[..read.item_len()]);
///     text.extend(&location[..read.location_len()]);
///     Ok(read)
/// }
///
/// let (caller, appid) = (b"ios:bundle-id:com.acme.app", b"https://example.com/facets");
/// let (mut record, mut text) = (Vec::new(), Vec::new());
/// let head = b"HTTP/1.1 302 Found\r\n\
///     Location: https://b.com/facets\r\n\
///     FIDO-AppID-Redirect-Authorized: true\r\n\
///     \r\n";
/// assert_eq!(append(head, &mut record, &mut text), Ok(Head::Redirect { location: 20 }));
/// assert_eq!(fetch_location(caller, appid, &record, &text), b"https://b.com/facets");
///
/// let head = b"HTTP/1.1 200 OK\r\n\
///     Content-Type: application/fido.trusted-apps+json; charset=utf-8\r\n\
///     \r\n";
/// assert_eq!(append(head, &mut record, &mut text), Ok(Head::Answer));
/// let body = br#"{"trustedFacets":[{"version":{"major":1,"minor":0},
///     "ids":["ios:bundle-id:com.acme.app"]}]}"#;
/// let (major, minor, table) = (1, 0, b"com");
/// let inputs = Inputs { caller, appid, major, minor, record: &record, text: &text, body, table };
/// assert_eq!(decide(&inputs), Answer::Rule4 { place: 0 });
/// ```
pub fn read_head(head: &[u8], start: u32, item: &mut [u8], text: &mut [u8]) -> Result<Head, Refusal> {
    result(ffi::read_head(head, start, item, text), item)
}

/// What the library reports, beside the item output, whose first byte is the item's kind.
fn result(read: ffi::HeadRead, item: &[u8]) -> Result<Head, Refusal> {
    let ffi::HeadRead { refusal, item_len, text_len } = read;
    match (refusal, item_len, text_len, item.first()) {
        (0, 8, location, Some(1)) => Ok(Head::Redirect { location: location as usize }),
        (0, 4, 0, Some(2)) => Ok(Head::Answer),
        (0, _, _, kind) => {
            panic!(
                "the library gave an item of {item_len} bytes, kind {kind:?}, and a Location of {text_len}"
            )
        }
        (number, 0, 0, _) => Err(Refusal::from_library(number)),
        (number, ..) => {
            panic!("the library gave refusal {number} with the lengths {item_len} and {text_len}")
        }
    }
}

#[cfg(test)]
mod tests {
    use super::{result, Head};
    use crate::{ffi::HeadRead, Refusal};
    use std::panic;

    const REDIRECT: [u8; 8] = [1, 1, 46, 1, 0, 0, 0, 9];
    const ANSWER: [u8; 8] = [2, 0, 200, 1, 0, 0, 0, 0];

    fn read(refusal: u32, item_len: u32, text_len: u32, item: &[u8]) -> Result<Head, Refusal> {
        result(HeadRead { refusal, item_len, text_len }, item)
    }

    #[test]
    fn lengths_or_a_refusal() {
        for location in [0, 9, 8_192] {
            let head = read(0, 8, location as u32, &REDIRECT);
            assert_eq!(head, Ok(Head::Redirect { location }));
            assert_eq!(head.map(|head| (head.item_len(), head.location_len())), Ok((8, location)));
        }
        let head = read(0, 4, 0, &ANSWER);
        assert_eq!(head, Ok(Head::Answer));
        assert_eq!(head.map(|head| (head.item_len(), head.location_len())), Ok((4, 0)));
        // What stands in the output under a refusal means nothing.
        for item in [&REDIRECT[..], &ANSWER, &[]] {
            assert_eq!(read(16, 0, 0, item), Err(Refusal::BadHead));
            assert_eq!(read(15, 0, 0, item), Err(Refusal::Full));
        }
    }

    fn panics(refusal: u32, item_len: u32, text_len: u32, item: &[u8], expected: &str) {
        let panic = panic::catch_unwind(|| read(refusal, item_len, text_len, item)).expect_err("no head");
        let message = panic.downcast_ref::<String>().expect("a message");
        assert!(message.contains(expected), "{message}");
    }

    #[test]
    fn an_item_of_another_kind_or_length_panics() {
        panics(0, 8, 9, &ANSWER, "an item of 8 bytes, kind Some(2), and a Location of 9");
        panics(0, 4, 0, &REDIRECT, "an item of 4 bytes, kind Some(1), and a Location of 0");
        panics(0, 4, 1, &ANSWER, "an item of 4 bytes, kind Some(2), and a Location of 1");
        panics(0, 7, 9, &REDIRECT, "an item of 7 bytes");
        panics(0, 0, 0, &[0; 8], "an item of 0 bytes, kind Some(0)");
        panics(0, 8, 9, &[3; 8], "kind Some(3)");
        panics(0, 8, 0, &[], "kind None");
    }

    #[test]
    fn a_refusal_carries_no_lengths() {
        panics(15, 8, 0, &REDIRECT, "refusal 15 with the lengths 8 and 0");
        panics(16, 0, 1, &REDIRECT, "refusal 16 with the lengths 0 and 1");
        panics(17, 0, 0, &REDIRECT, "unknown refusal 17");
    }
}
