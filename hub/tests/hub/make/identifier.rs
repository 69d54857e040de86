//! Web origins, native identities and HTTPS URLs, good and bad, from few hosts and names.

use super::table::labels;
use crate::{model::identifier::Web, random::Random};

/// A host of few labels, now and then one too long.
pub fn host(random: &mut Random) -> String {
    String::from_utf8(labels(random, 1, 4)).expect("ASCII")
}

/// A host that has much in common with another, often its private label.
pub fn relative(random: &mut Random, host: &str) -> String {
    let (first, parent) = host.split_once('.').unwrap_or((host, host));
    match random.below(9) {
        0 | 1 => host.to_owned(),
        2 | 3 => format!("{}.{host}", random.pick(&["a", "b", "www"])),
        4 | 5 => format!("{}.{parent}", random.pick(&["a", "b", "www"])),
        6 => parent.to_owned(),
        7 => format!("{first}.{}", random.pick(&["a", "b", "c.ck"])),
        _ => self::host(random),
    }
}

fn https(random: &mut Random) -> &'static str {
    random.pick(&["https://", "https://", "https://", "HTTPS://", "hTtPs://", "httpS://"])
}

fn port(random: &mut Random) -> &'static str {
    random.pick(&[
        "", "", "", "", "", ":443", ":443", ":443", ":443", ":444", ":8443", ":8444", ":1", ":9", ":80",
        ":9999", ":10000", ":65535",
    ])
}

/// A port that differs from this one in one digit.
fn near(random: &mut Random, port: u32) -> u32 {
    loop {
        let mut digits = port.to_string().into_bytes();
        let at = random.below(digits.len());
        digits[at] = b"0123456789"[random.below(10)];
        let other = String::from_utf8(digits.clone()).expect("ASCII").parse().expect("a number");
        if other != port && other <= 65535 && digits[0] != b'0' {
            return other;
        }
    }
}

/// A web origin of this host, its letters in any case.
pub fn origin(random: &mut Random, host: &str) -> String {
    let port = port(random);
    origin_with(random, host, port)
}

fn origin_with(random: &mut Random, host: &str, port: &str) -> String {
    let mut host = host.as_bytes().to_vec();
    if random.chance(30) {
        random.mix_case(&mut host);
    }
    let host = String::from_utf8(host).expect("ASCII");
    let slash = random.pick(&["", "", "/"]);
    format!("{}{host}{port}{slash}", https(random))
}

/// A web origin of the same host: mostly on the same port, where 443 may be written out or not, else on one that
/// differs in a digit or on any.
pub fn sibling(random: &mut Random, web: &Web) -> String {
    let host = String::from_utf8(web.host.clone()).expect("ASCII");
    let port = web.port.unwrap_or(443);
    let port = match random.below(10) {
        0..=5 => port,
        6..=8 => near(random, port),
        _ => return origin(random, &host),
    };
    let absent = port == 443 && random.chance(50);
    let port = if absent { String::new() } else { format!(":{port}") };
    origin_with(random, &host, &port)
}

/// A native identity, one of some twenty.
pub fn native(random: &mut Random) -> String {
    match random.below(3) {
        0 => format!(
            "android:apk-key-hash:{}{}",
            random.pick(&["Az09+/Az09+/Az09+/Az09+/Az", "ABCDEFGHIJKLMNOPQRSTUVWXYZ"]),
            random.pick(&["a", "A", "0", "+", "/"])
        ),
        1 => {
            format!(
                "ios:bundle-id:{}",
                random.pick(&["com.acme.app", "com.acme.App", "a", "-", ".", "9-a.Z"])
            )
        }
        _ => format!("ios:bundle-id:{}", "b".repeat(254 + random.below(2))),
    }
}

/// A web origin of this host, or a native identity.
pub fn facet(random: &mut Random, host: &str) -> String {
    if random.chance(65) {
        origin(random, host)
    } else {
        native(random)
    }
}

/// Begins like a facet and is none.
pub fn no_facet(random: &mut Random, host: &str) -> String {
    let https = https(random);
    match random.below(8) {
        0..=2 => format!(
            "{https}{host}{}",
            random.pick(&[
                "/x", "//", "?", "/?q=1", "#", "/#f", ":443/x", "\\", " ", "\0", ".", "..a", "_", "ü"
            ])
        ),
        3 | 4 => format!(
            "{https}{host}{}",
            random.pick(&[
                ":", ":/", ":0", ":080", ":0443", ":65536", ":99999", ":100000", ":443:443", ":4x", ":+1",
                ":-1"
            ])
        ),
        5 => {
            format!(
                "{https}{}{host}",
                random.pick(&["user@", "user:pw@", ".", "-", "/", "https://", "*.", "["])
            )
        }
        6 => format!(
            "android:apk-key-hash:{}",
            random.pick(&[
                "", "Az09+/Az09+/Az09+/Az09+/Az", "Az09+/Az09+/Az09+/Az09+/Azaa",
                "Az09+/Az09+/Az09+/Az09+/Az=", "Az09-_Az09-_Az09-_Az09-_Aza",
                "Az09+/Az09+/Az09+/Az09+/Az\u{e9}",
            ])
        ),
        _ => {
            let long = "b".repeat(256);
            let names = ["", "a_b", "a b", "a/b", "com.acme.app/", "a:b", "\u{e9}", &long];
            format!("ios:bundle-id:{}", random.pick(&names))
        }
    }
}

/// Begins with none of `https://` and the two native prefixes.
pub fn other_scheme(random: &mut Random, host: &str) -> String {
    let starts = [
        "http://", "HTTP://", "https:/", "https:", "https", "htps://", " https://", "\u{feff}https://",
        "ftp://", "httpss://", "https//", "", "//", "android:", "Android:apk-key-hash:",
        "android:apk-key-hash", "android:apk-key-hash-sha256:", "IOS:bundle-id:", "ios:bundle-ID:",
        "ios:bundle-id", "h", "i", "\0",
    ];
    match random.below(3) {
        0 => random.pick(&starts).to_owned(),
        1 => random.pick(&starts).to_owned() + random.pick(&["com.acme.app", "Az09+/Az09+/Az09+/Az09+/Aza"]),
        _ => random.pick(&starts).to_owned() + host,
    }
}

/// More than 512 bytes, or just not; of any beginning.
pub fn long(random: &mut Random, host: &str) -> String {
    let mut entry = match random.below(4) {
        0 => origin(random, host) + "/",
        1 => native(random),
        2 => other_scheme(random, host),
        _ => String::new(),
    };
    let length = if random.chance(20) { 510 + random.below(3) } else { 513 + random.below(9) };
    // Two and three bytes each, so that fewer characters than 513 are too long.
    let filler = random.pick(&["a", "a", "\u{fc}", "\u{20ac}"]);
    while entry.len() + filler.len() <= length {
        entry += filler;
    }
    entry += &"z".repeat(length.saturating_sub(entry.len()));
    entry
}

/// An HTTPS URL of this host.
pub fn url(random: &mut Random, host: &str) -> String {
    let tails = ["", "/", "/facets", "?", "?a=b", "/!~", "/a?b/c", "/a@b:c", "/%20", "//", "/\"<>\\^`{|}"];
    let mut url = format!("{}{host}{}{}", https(random), port(random), random.pick(&tails));
    if random.chance(3) {
        // Around the bound of 2,048.
        let length = 2046 + random.below(4);
        url += "/";
        url += &"u".repeat(length.saturating_sub(url.len()));
    }
    url
}

/// Begins `https://` and is no HTTPS URL, or is too long.
pub fn bad_url(random: &mut Random, host: &str) -> String {
    match random.below(8) {
        0..=2 => {
            let tails = [
                "/#", "#f", "/ ", "/a b", "/\u{7f}", "/\u{e9}", "/\t", "/\0", "?#", "\\", ";", "@b",
                "/\u{80}",
            ];
            format!("{}{host}{}", https(random), random.pick(&tails))
        }
        3 => format!("{}{}", https(random), random.pick(&["", "/", "?", ":443", ".", "-", "/a.b", ":/"])),
        4 => format!("https://{}", "a.b/".repeat(513 + random.below(3))),
        5 => "u".repeat(2049 + random.below(3)),
        _ => {
            let origin = no_facet(random, host);
            if origin.contains(['/', '?']) && !origin.contains(['#', '@']) {
                format!("https://{host}:{}", random.pick(&["0", "", "65536", "01", "1a", "/"]))
            } else {
                origin
            }
        }
    }
}

/// An AppID that does not begin `https://`.
pub fn foreign(random: &mut Random, host: &str) -> String {
    match random.below(3) {
        0 => native(random),
        // An empty AppID is rule 2's in the decision.
        1 => other_scheme(random, host) + "x",
        _ => no_facet(random, host).replacen("ttps", "ttp", 1),
    }
}
