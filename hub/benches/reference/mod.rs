//! What the library does with a list, as a plain Rust program over serde_json and the crate `publicsuffix` does
//! it: the body is read in one pass into vectors and strings, its suffix table was read before. It does the same
//! job, but for the bound of 16 on nesting (serde_json's is 128), and tells no refusals apart.

mod body;

use body::entries;
use publicsuffix::{List, Psl};
use std::fmt::Write;

/// Labels of 1 to 63 letters, digits or hyphens, no hyphen first or last, joined by dots; at most 253 bytes.
fn is_host(host: &str) -> bool {
    let label = |label: &str| {
        (1..=63).contains(&label.len())
            && label.bytes().all(|b| b.is_ascii_alphanumeric() || b == b'-')
            && !label.starts_with('-')
            && !label.ends_with('-')
    };
    host.len() <= 253 && host.split('.').all(label)
}

fn port(port: &str) -> Option<u16> {
    let digits = port.bytes().all(|b| b.is_ascii_digit()) && !port.starts_with('0');
    port.parse().ok().filter(|_| digits)
}

/// What follows `https://`, in either case.
fn after_https(text: &str) -> Option<&str> {
    text.get(..8).filter(|start| start.eq_ignore_ascii_case("https://")).map(|_| &text[8..])
}

/// Host and port of what stands before the path.
fn authority(text: &str) -> Option<(&str, Option<u16>)> {
    let (host, port) = match text.split_once(':') {
        None => (text, None),
        Some((host, digits)) => (host, Some(port(digits)?)),
    };
    is_host(host).then_some((host, port))
}

/// The host of an HTTPS URL.
fn url_host(url: &str) -> Option<&str> {
    let rest = after_https(url)?;
    let (before, tail) = rest.split_at(rest.find(['/', '?']).unwrap_or(rest.len()));
    let good = url.len() <= 2048 && tail.bytes().all(|b| (0x21..=0x7E).contains(&b) && b != b'#');
    authority(before).filter(|_| good).map(|(host, _)| host)
}

/// A host's private label; the host is in lower case.
fn label<'a>(list: &List, host: &'a str) -> Option<&'a str> {
    let last = host.rsplit('.').next()?;
    if last.bytes().all(|b| b.is_ascii_digit()) {
        return None;
    }
    let length = list.domain(host.as_bytes())?.as_bytes().len();
    Some(&host[host.len() - length..])
}

/// The length of the host's private label; 0 where there is none.
pub fn label_length(list: &List, host: &str) -> usize {
    if !is_host(host) {
        return 0;
    }
    label(list, &host.to_ascii_lowercase()).map_or(0, str::len)
}

/// An origin's host in lower case and its port, or a native identity.
#[derive(PartialEq)]
enum Facet<'a> {
    Web(String, Option<u16>),
    Native(&'a str),
}

/// The facet, or the cause it is discarded for.
fn facet(entry: &str) -> Result<Facet<'_>, usize> {
    if entry.len() > 512 {
        return Err(1);
    }
    if let Some(rest) = after_https(entry) {
        let (host, port) = authority(rest.strip_suffix('/').unwrap_or(rest)).ok_or(3usize)?;
        return Ok(Facet::Web(host.to_ascii_lowercase(), port));
    }
    let good = if let Some(hash) = entry.strip_prefix("android:apk-key-hash:") {
        hash.len() == 27 && hash.bytes().all(|b| b.is_ascii_alphanumeric() || b == b'+' || b == b'/')
    } else if let Some(name) = entry.strip_prefix("ios:bundle-id:") {
        let good = |b: u8| b.is_ascii_alphanumeric() || b == b'-' || b == b'.';
        (1..=255).contains(&name.len()) && name.bytes().all(good)
    } else {
        return Err(2);
    };
    good.then_some(Facet::Native(entry)).ok_or(3)
}

/// An AppID's list, ready to be gone through.
pub struct Reference<'a> {
    list: &'a List,
    label: Option<String>,
    entries: Vec<String>,
}

impl<'a> Reference<'a> {
    pub fn new(appid: &str, version: (u16, u16), body: &[u8], list: &'a List) -> Option<Reference<'a>> {
        let host = url_host(appid)?.to_ascii_lowercase();
        let label = label(list, &host).map(str::to_owned);
        Some(Reference { list, label, entries: entries(body, version)? })
    }

    fn judge<'e>(&self, entry: &'e str) -> Result<Facet<'e>, usize> {
        let facet = facet(entry)?;
        match &facet {
            Facet::Web(host, _) => match label(self.list, host) {
                Some(label) if self.label.as_deref() == Some(label) => Ok(facet),
                _ => Err(4),
            },
            Facet::Native(_) => Ok(facet),
        }
    }

    /// The place of the first kept entry that matches.
    pub fn place(&self, caller: &str) -> Option<usize> {
        let caller = facet(caller).ok()?;
        let kept = self.entries.iter().filter_map(|entry| self.judge(entry).ok());
        let matches = |entry: &Facet| match (entry, &caller) {
            (Facet::Web(host, port), Facet::Web(caller, own)) => {
                host == caller && port.unwrap_or(443) == own.unwrap_or(443)
            }
            (entry, caller) => entry == caller,
        };
        kept.enumerate().find(|(_, entry)| matches(entry)).map(|(place, _)| place)
    }

    /// The cleaned list.
    pub fn clean(&self, (major, minor): (u16, u16)) -> String {
        let mut out =
            format!(r#"{{"trustedFacets":[{{"version":{{"major":{major},"minor":{minor}}},"ids":["#);
        let kept = self.entries.iter().filter_map(|entry| self.judge(entry).ok());
        for (place, facet) in kept.enumerate() {
            out += if place == 0 { "\"" } else { ",\"" };
            match facet {
                Facet::Web(host, None | Some(443)) => write!(out, "https://{host}\""),
                Facet::Web(host, Some(port)) => write!(out, "https://{host}:{port}\""),
                Facet::Native(identity) => write!(out, "{identity}\""),
            }
            .expect("a string grows");
        }
        out + "]}]}"
    }

    /// Kept entries and those of each cause.
    pub fn tally(&self) -> [u32; 5] {
        let mut counts = [0; 5];
        for entry in &self.entries {
            counts[self.judge(entry).err().unwrap_or(0)] += 1;
        }
        counts
    }
}
