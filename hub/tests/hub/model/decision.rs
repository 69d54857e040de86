//! "Decision" and fetch location: the document's sentences stand above the lines that say the same.

use super::{
    identifier::{self, begins_https, Facet},
    list::{self, Judge},
    record::{self, Record},
    suffix, Refused,
};
use facets_hub::Inputs;

/// An answer that is no refusal.
#[derive(Clone, Copy, Debug, PartialEq, Eq)]
pub enum Answer {
    Rule(u16),
    /// Rule 4 with the place.
    Listed(u32),
    Fetch,
}

pub type Decision = Result<Answer, Refused>;

/// 1 to 4 a rule, 5 fetch, 100 + refusal.
pub fn code(decision: Decision) -> u16 {
    match decision {
        Ok(Answer::Rule(rule)) => rule,
        Ok(Answer::Listed(_)) => 4,
        Ok(Answer::Fetch) => 5,
        Err(refusal) => 100 + refusal,
    }
}

/// Refusal 2: over 2,048 bytes, or begins `https://` and is no HTTPS URL.
pub fn bad_appid(appid: &[u8]) -> bool {
    appid.len() > 2048 || begins_https(appid) && identifier::url_host(appid).is_none()
}

/// The decision takes caller, AppID, major, minor (16-bit numbers), record, text, body and table, in this
/// order:
pub fn decide(inputs: &Inputs) -> Decision {
    // - refusals 1, 2;
    let caller = identifier::facet(inputs.caller).ok_or(1u16)?;
    if bad_appid(inputs.appid) {
        return Err(2);
    }
    // - allowed by rule 2: AppID empty;
    if inputs.appid.is_empty() {
        return Ok(Answer::Rule(2));
    }
    // - allowed by rule 1: AppID not beginning `https://` and equal in bytes to the caller;
    if !begins_https(inputs.appid) && inputs.appid == inputs.caller {
        return Ok(Answer::Rule(1));
    }
    // - refusal 3;
    let host = identifier::url_host(inputs.appid).ok_or(3u16)?;
    // - allowed by rule 3: a web caller whose host is the AppID's, ports aside;
    if let Facet::Web(web) = &caller {
        if web.host.eq_ignore_ascii_case(&host) {
            return Ok(Answer::Rule(3));
        }
    }
    // - refusal 4; then hop by hop 5 before 6;
    let Record { redirects, answer } = record::read(inputs.record, inputs.text).ok_or(4u16)?;
    for redirect in redirects {
        if !redirect.header_seen {
            return Err(5);
        }
        identifier::url_host(&redirect.location).ok_or(6u16)?;
    }
    // - fetch, where the record has no answer;
    let Some(answer) = answer else {
        return Ok(Answer::Fetch);
    };
    // - refusals 7 to 13;
    if answer.status != 200 {
        return Err(7);
    }
    if !answer.type_seen {
        return Err(8);
    }
    let entries = list::selected(inputs.body, inputs.major, inputs.minor)?;
    if suffix::table(inputs.table).is_none() {
        return Err(13);
    }
    // - allowed by rule 4, with the place of the first kept entry matching the caller: native in bytes, web
    //   by host and port, an absent port being 443;
    let kept = Judge { appid: inputs.appid, table: inputs.table }.kept(&entries);
    let place = kept.iter().position(|entry| entry.matches(&caller));
    // - refusal 14.
    place.map(|place| Answer::Listed(place as u32)).ok_or(14)
}

/// The fetch location call takes caller, AppID, record and text, and returns the last redirect's part of the
/// text, or the AppID where there is none, and an empty part unless the decision is fetch.
pub fn fetch_location(inputs: &Inputs) -> Vec<u8> {
    if decide(inputs) != Ok(Answer::Fetch) {
        return Vec::new();
    }
    let redirects = record::read(inputs.record, inputs.text).expect("a record").redirects;
    redirects.into_iter().last().map_or(inputs.appid.to_vec(), |redirect| redirect.location)
}
