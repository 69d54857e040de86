//! What cases written by hand share: a good case to change, and checks against library and model.

use crate::{
    case::{shown, Case},
    check,
    make::{json::Json, record},
    model::decision::{code, Answer},
};

/// The rules of document 01's label cases.
pub const TABLE: &str = "com\nhosting.example.com\n*.ck\n!www.ck\n";

pub const APP: &str = "ios:bundle-id:com.acme.app";

/// A list of version 1.0 with these entries.
pub fn body<S: AsRef<str>>(ids: &[S]) -> Vec<u8> {
    let ids = Json::Array(ids.iter().map(|id| Json::text(id.as_ref())).collect());
    body_of(&ids.plain())
}

/// A list of version 1.0 with this text for its `ids`.
pub fn body_of(ids: &str) -> Vec<u8> {
    format!(r#"{{"trustedFacets":[{{"version":{{"major":1,"minor":0}},"ids":{ids}}}]}}"#).into_bytes()
}

/// A native caller, an AppID on www.example.com, the list answered without a redirect, and these entries.
pub fn case<S: AsRef<str>>(ids: &[S]) -> Case {
    Case {
        caller: APP.into(),
        appid: "https://www.example.com/appID".into(),
        major: 1,
        minor: 0,
        record: record::answer(200, 1),
        text: Vec::new(),
        body: body(ids),
        table: TABLE.into(),
    }
}

impl Case {
    /// Asserts the decision's code and that of a call with a place.
    #[track_caller]
    pub fn decides(&self, expected: u16) {
        assert_eq!(code(check::decision(self)), expected);
    }

    /// Asserts that the caller is allowed by rule 4 with this place.
    #[track_caller]
    pub fn listed_at(&self, place: u32) {
        assert_eq!(check::decision(self), Ok(Answer::Listed(place)));
    }

    /// Asserts that decision, cleaning and tally all refuse so.
    #[track_caller]
    pub fn refused(&self, number: u16) {
        self.decides(100 + number);
        assert_eq!(check::cleaning(self, b"any bytes"), Err(number));
        assert_eq!(check::tallying(self), Err(number));
    }

    /// Asserts the counts of kept entries and of the four causes, and that the list is cleaned.
    #[track_caller]
    pub fn counts(&self, expected: [u32; 5]) {
        assert_eq!(check::tallying(self), Ok(expected));
        let length = self.cleaning().list().expect("a list").len();
        assert_eq!(check::cleaning(self, &vec![b'#'; length + 9]), Ok(length));
        assert_eq!(check::cleaning(self, &vec![b'#'; length]), Ok(length));
        assert_eq!(check::cleaning(self, &vec![b'#'; length - 1]), Err(15));
        let decided = code(check::decision(self));
        assert!(decided == 4 || decided == 114, "{decided}");
    }

    /// Asserts that cleaning keeps just these entries, in normal form.
    #[track_caller]
    pub fn keeps(&self, forms: &[&str]) {
        let Case { major, minor, .. } = self;
        let quoted: Vec<String> = forms.iter().map(|form| format!("\"{form}\"")).collect();
        let list = format!(
            r#"{{"trustedFacets":[{{"version":{{"major":{major},"minor":{minor}}},"ids":[{}]}}]}}"#,
            quoted.join(",")
        );
        let mut out = vec![b'#'; list.len() + 1];
        assert_eq!(self.cleaning().clean(&mut out), Ok(list.len()), "{self:?}");
        assert_eq!(shown(&out), shown(format!("{list}#").as_bytes()), "{self:?}");
        assert_eq!(check::cleaning(self, &out), Ok(list.len()));
    }
}
