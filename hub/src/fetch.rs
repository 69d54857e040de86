//! Where the trusted facets list is to be fetched.

use crate::ffi;

/// The part of the text that is the last redirect's Location, or the AppID where the record has no redirect;
/// empty unless the decision is [`Fetch`](crate::Answer::Fetch).
///
/// ```
/// let (caller, appid) = (b"ios:bundle-id:com.acme.app", b"https://example.com/facets");
/// assert_eq!(facets_hub::fetch_location(caller, appid, b"", b""), appid);
///
/// // A redirect: status 302, authorized header seen, its Location 15 bytes from byte 3.
/// let record = [1, 1, 46, 1, 0, 3, 0, 15];
/// let text = b"...https://b.com/f...";
/// assert_eq!(facets_hub::fetch_location(caller, appid, &record, text), b"https://b.com/f");
/// ```
pub fn fetch_location<'a>(caller: &[u8], appid: &'a [u8], record: &[u8], text: &'a [u8]) -> &'a [u8] {
    part(ffi::fetch_location(caller, appid, record, text), appid, text)
}

fn part<'a>(location: ffi::Location, appid: &'a [u8], text: &'a [u8]) -> &'a [u8] {
    let lent = match location.source {
        0 => b"",
        1 => appid,
        2 => text,
        source => panic!("the library gave the unknown source {source}"),
    };
    let start = location.start as usize;
    &lent[start..start + location.len as usize]
}

#[cfg(test)]
mod tests {
    use super::part;
    use crate::ffi::Location;

    #[test]
    fn a_location_is_a_part_of_its_source() {
        let location = |source, start, len| part(Location { source, start, len }, b"appid", b"text");
        assert_eq!(location(0, 0, 0), b"");
        assert_eq!(location(1, 0, 5), b"appid");
        assert_eq!(location(2, 1, 3), b"ext");
        assert_eq!(location(2, 4, 0), b"");
    }

    #[test]
    #[should_panic(expected = "unknown source 3")]
    fn another_source_is_unknown() {
        part(Location { source: 3, start: 0, len: 0 }, b"", b"");
    }
}
