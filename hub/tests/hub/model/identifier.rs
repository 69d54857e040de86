//! "Identifiers": the document's sentences stand above the lines that say the same.

use super::suffix;

pub const ANDROID: &[u8] = b"android:apk-key-hash:";
pub const IOS: &[u8] = b"ios:bundle-id:";

/// What follows `https://`, which is read in either ASCII case wherever this paper tests for it.
fn after_https(bytes: &[u8]) -> Option<&[u8]> {
    let (start, rest) = bytes.split_at_checked(8)?;
    start.eq_ignore_ascii_case(b"https://").then_some(rest)
}

pub fn begins_https(bytes: &[u8]) -> bool {
    after_https(bytes).is_some()
}

/// A host and its port, where it has one.
#[derive(Clone, Debug, PartialEq, Eq)]
pub struct Web {
    pub host: Vec<u8>,
    pub port: Option<u32>,
}

/// A host, optionally `:` and a port of 1 to 65535 without leading zero.
fn host_and_port(bytes: &[u8]) -> Option<Web> {
    let (host, port) = match bytes.iter().position(|&b| b == b':') {
        None => (bytes, None),
        Some(at) => (&bytes[..at], Some(port(&bytes[at + 1..])?)),
    };
    suffix::host(host)?;
    Some(Web { host: host.to_vec(), port })
}

fn port(digits: &[u8]) -> Option<u32> {
    let good = (1..=5).contains(&digits.len()) && digits.iter().all(u8::is_ascii_digit) && digits[0] != b'0';
    let port = good.then(|| digits.iter().fold(0, |number, &b| number * 10 + u32::from(b - b'0')))?;
    (1..=65535).contains(&port).then_some(port)
}

/// A web origin is `https://`, a host, optionally `:` and a port, optionally one final `/`.
fn web_origin(bytes: &[u8]) -> Option<Web> {
    let rest = after_https(bytes)?;
    host_and_port(rest.strip_suffix(b"/").unwrap_or(rest))
}

/// A native identity is `android:apk-key-hash:` and exactly 27 characters of A–Z a–z 0–9 + /, or
/// `ios:bundle-id:` and 1 to 255 letters, digits, hyphens or dots; these prefixes are lower case.
fn is_native(bytes: &[u8]) -> bool {
    if let Some(hash) = bytes.strip_prefix(ANDROID) {
        return hash.len() == 27 && hash.iter().all(|&b| b.is_ascii_alphanumeric() || b == b'+' || b == b'/');
    }
    if let Some(name) = bytes.strip_prefix(IOS) {
        let allowed = |&b: &u8| b.is_ascii_alphanumeric() || b == b'-' || b == b'.';
        return (1..=255).contains(&name.len()) && name.iter().all(allowed);
    }
    false
}

#[derive(Clone, Debug, PartialEq, Eq)]
pub enum Facet {
    Web(Web),
    Native(Vec<u8>),
}

/// A facet is either one, in at most 512 bytes.
pub fn facet(bytes: &[u8]) -> Option<Facet> {
    if bytes.len() > 512 {
        return None;
    }
    let native = || is_native(bytes).then(|| Facet::Native(bytes.to_vec()));
    web_origin(bytes).map(Facet::Web).or_else(native)
}

impl Facet {
    pub fn normal_form(&self) -> Vec<u8> {
        match self {
            // A web origin's normal form is `https://`, the host in lower case, and the port unless absent
            // or 443.
            Facet::Web(Web { host, port }) => {
                let port = port.filter(|&port| port != 443).map_or(String::new(), |port| format!(":{port}"));
                [b"https://", &host.to_ascii_lowercase()[..], port.as_bytes()].concat()
            }
            // A native identity is its own normal form.
            Facet::Native(bytes) => bytes.clone(),
        }
    }

    /// Native in bytes, web by host and port, an absent port being 443.
    pub fn matches(&self, caller: &Facet) -> bool {
        match (self, caller) {
            (Facet::Web(entry), Facet::Web(caller)) => {
                let port = |web: &Web| web.port.unwrap_or(443);
                entry.host.eq_ignore_ascii_case(&caller.host) && port(entry) == port(caller)
            }
            (Facet::Native(entry), Facet::Native(caller)) => entry == caller,
            _ => false,
        }
    }
}

/// Host and port of an HTTPS URL; nothing where the bytes are none.
pub fn url(bytes: &[u8]) -> Option<Web> {
    // An HTTPS URL has at most 2,048 bytes: `https://`, host, optional port as above, then nothing or a tail
    // beginning with `/` or `?`, of bytes 0x21 to 0x7E without `#`.
    if bytes.len() > 2048 {
        return None;
    }
    let rest = after_https(bytes)?;
    let end = rest.iter().position(|b| b"/?".contains(b)).unwrap_or(rest.len());
    let (web, tail) = rest.split_at(end);
    let good = tail.iter().all(|b| (0x21..=0x7E).contains(b) && *b != b'#');
    host_and_port(web).filter(|_| good)
}

/// The host of an HTTPS URL.
pub fn url_host(bytes: &[u8]) -> Option<Vec<u8>> {
    url(bytes).map(|web| web.host)
}
