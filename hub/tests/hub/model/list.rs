//! "The list": the document's sentences stand above the lines that say the same.

use super::{
    identifier::{self, begins_https, Facet},
    json::{self, Value},
    suffix, Refused,
};

type Entry = Vec<u8>;

const UNREADABLE: Refused = 10;
const MISSHAPEN: Refused = 11;

/// The entries of the selected `ids`, decoded; or which of refusals 9 to 12 fits the body.
pub fn selected(body: &[u8], major: u16, minor: u16) -> Result<Vec<Entry>, Refused> {
    // The body is at most 65,536 bytes.
    if body.len() > 65_536 {
        return Err(9);
    }
    let value = json::read(body).ok_or(UNREADABLE)?;
    let objects = shape(&value).ok_or(MISSHAPEN)?;
    // The selected object is the first whose version equals the wanted major and minor.
    let wanted = objects.into_iter().find(|object| (object.major, object.minor) == (major, minor));
    Ok(wanted.ok_or(12u16)?.ids)
}

struct Object {
    major: u16,
    minor: u16,
    ids: Vec<Entry>,
}

/// Its shape: an object with `trustedFacets` once, an array of objects.
fn shape(value: &Value) -> Option<Vec<Object>> {
    array(once(value, "trustedFacets")?)?.iter().map(object).collect()
}

/// Each has `version` once, an object with `major` and `minor` once each; and `ids` once, an array of strings.
fn object(value: &Value) -> Option<Object> {
    let version = once(value, "version")?;
    let ids = array(once(value, "ids")?)?.iter().map(|id| match id {
        // An entry is one string of the selected `ids`, decoded to UTF-8 bytes.
        Value::String(entry) => Some(entry.clone().into_bytes()),
        _ => None,
    });
    let (major, minor) = (number(once(version, "major")?)?, number(once(version, "minor")?)?);
    Some(Object { major, minor, ids: ids.collect::<Option<_>>()? })
}

/// The member that the object has once. Names compare after escapes are decoded. Other members are skipped,
/// whatever value they hold.
fn once<'a>(value: &'a Value, name: &str) -> Option<&'a Value> {
    let Value::Object(members) = value else {
        return None;
    };
    let named: Vec<&Value> =
        members.iter().filter(|member| member.0 == name).map(|member| &member.1).collect();
    (named.len() == 1).then(|| named[0])
}

fn array(value: &Value) -> Option<&[Value]> {
    match value {
        Value::Array(elements) => Some(elements),
        _ => None,
    }
}

/// Written as digits only and at most 65535.
fn number(value: &Value) -> Option<u16> {
    match value {
        Value::Number(written) if written.bytes().all(|b| b.is_ascii_digit()) => written.parse().ok(),
        _ => None,
    }
}

/// What an entry's fate depends on besides itself.
#[derive(Clone, Copy)]
pub struct Judge<'a> {
    pub appid: &'a [u8],
    pub table: &'a [u8],
}

impl Judge<'_> {
    /// The facet of a kept entry, or the first cause that holds for discarding it.
    pub fn judge(&self, entry: &[u8]) -> Result<Facet, usize> {
        // 1. longer than 512 bytes;
        if entry.len() > 512 {
            return Err(1);
        }
        // 2. beginning with none of `https://` (either case) and the two native prefixes;
        if !begins_https(entry)
            && !entry.starts_with(identifier::ANDROID)
            && !entry.starts_with(identifier::IOS)
        {
            return Err(2);
        }
        // 3. not a facet, so a path, query, user name or fragment discards the entry;
        let facet = identifier::facet(entry).ok_or(3usize)?;
        // 4. a web origin, where its host or the AppID's has no private label or the two labels are unequal.
        if let Facet::Web(web) = &facet {
            // For cause 4, an AppID that is no HTTPS URL has no label.
            let own = identifier::url_host(self.appid).and_then(|host| self.label(&host));
            let equal = |own: Vec<u8>| Some(own) == self.label(&web.host);
            if !own.is_some_and(equal) {
                return Err(4);
            }
        }
        Ok(facet)
    }

    /// A host's private label in lower case, for labels compare without regard to ASCII case. Under a table
    /// that refusal 13 meets no host has one.
    fn label(&self, host: &[u8]) -> Option<Vec<u8>> {
        let answer = suffix::private_label(host, self.table);
        Some(answer.part().to_ascii_lowercase()).filter(|label| !label.is_empty())
    }

    /// All others are kept, in order, repeats included.
    pub fn kept(&self, entries: &[Entry]) -> Vec<Facet> {
        entries.iter().filter_map(|entry| self.judge(entry).ok()).collect()
    }
}
