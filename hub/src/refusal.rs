//! The refusals of document 01 and of the requests that change it.

use std::fmt;

/// Why a call is refused; as a number, the documents'.
#[derive(Clone, Copy, Debug, PartialEq, Eq, PartialOrd, Ord, Hash)]
#[repr(u16)]
pub enum Refusal {
    /// The caller is not a facet.
    Stranger = 1,
    /// The AppID is over 2,048 bytes, or begins `https://` and is no HTTPS URL.
    BadAppId = 2,
    /// The AppID does not begin `https://`.
    ForeignAppId = 3,
    /// The record is not as laid out, or a Location's start plus length passes the text's end.
    BadRecord = 4,
    /// A redirect's authorized header was not seen.
    OpenRedirect = 5,
    /// A redirect's Location is no HTTPS URL.
    BadLocation = 6,
    /// The answer's status is not 200.
    NotFetched = 7,
    /// The right content type was not seen.
    WrongType = 8,
    /// The body is over 65,536 bytes.
    LongList = 9,
    /// The body is not JSON as document 01 wants it.
    Unreadable = 10,
    /// The body is JSON of another shape.
    Misshapen = 11,
    /// No object of the list has the wanted version.
    NoVersion = 12,
    /// The suffix table has a line that is no rule, or is over 1,048,576 bytes.
    BadTable = 13,
    /// No kept entry matches the caller.
    NotListed = 14,
    /// An output is shorter than what is to be written, or a redirect's start does not fit 2 bytes.
    Full = 15,
    /// The response head is not one, is over 8,192 bytes, or is a redirect's without exactly one Location.
    BadHead = 16,
}

impl Refusal {
    /// All refusals, by their numbers from 1.
    pub const ALL: [Refusal; 16] = [
        Refusal::Stranger,
        Refusal::BadAppId,
        Refusal::ForeignAppId,
        Refusal::BadRecord,
        Refusal::OpenRedirect,
        Refusal::BadLocation,
        Refusal::NotFetched,
        Refusal::WrongType,
        Refusal::LongList,
        Refusal::Unreadable,
        Refusal::Misshapen,
        Refusal::NoVersion,
        Refusal::BadTable,
        Refusal::NotListed,
        Refusal::Full,
        Refusal::BadHead,
    ];

    /// The refusal's number, from 1 to 16.
    pub fn number(self) -> u16 {
        self as u16
    }

    /// The refusal of this number.
    pub(crate) fn from_library(number: u32) -> Refusal {
        let refusal = Refusal::ALL.into_iter().find(|refusal| u32::from(refusal.number()) == number);
        refusal.unwrap_or_else(|| panic!("the library gave the unknown refusal {number}"))
    }

    /// The refusal's name.
    pub fn name(self) -> &'static str {
        match self {
            Refusal::Stranger => "stranger",
            Refusal::BadAppId => "bad AppID",
            Refusal::ForeignAppId => "foreign AppID",
            Refusal::BadRecord => "bad record",
            Refusal::OpenRedirect => "open redirect",
            Refusal::BadLocation => "bad Location",
            Refusal::NotFetched => "not fetched",
            Refusal::WrongType => "wrong type",
            Refusal::LongList => "long list",
            Refusal::Unreadable => "unreadable",
            Refusal::Misshapen => "misshapen",
            Refusal::NoVersion => "no version",
            Refusal::BadTable => "bad table",
            Refusal::NotListed => "not listed",
            Refusal::Full => "full",
            Refusal::BadHead => "bad head",
        }
    }
}

impl fmt::Display for Refusal {
    fn fmt(&self, f: &mut fmt::Formatter) -> fmt::Result {
        write!(f, "refused {}, {}", self.number(), self.name())
    }
}

impl std::error::Error for Refusal {}

#[cfg(test)]
mod tests {
    use super::Refusal;

    #[test]
    fn every_number_from_1_to_16_is_a_refusal() {
        let numbers: Vec<u16> = (1..=16).map(|n| Refusal::from_library(n).number()).collect();
        assert_eq!(numbers, (1..=16).collect::<Vec<u16>>());
    }

    #[test]
    fn a_refusal_shows_its_number_and_name() {
        assert_eq!(Refusal::Stranger.to_string(), "refused 1, stranger");
        assert_eq!(Refusal::BadHead.to_string(), "refused 16, bad head");
    }

    #[test]
    #[should_panic(expected = "unknown refusal 17")]
    fn a_number_past_16_is_unknown() {
        Refusal::from_library(17);
    }
}
