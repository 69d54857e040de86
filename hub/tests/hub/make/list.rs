//! Trusted facets lists, good and faulty.

use super::{
    identifier::{facet, long, native, no_facet, origin, other_scheme, relative, sibling},
    json::{any, nest, other_name, Json, Style, NO_UTF8, UNREADABLE},
};
use crate::{
    model::identifier::{self as model, Facet},
    random::Random,
};

/// A version: mostly 1.0.
pub fn version(random: &mut Random) -> (u16, u16) {
    if random.chance(60) {
        return (1, 0);
    }
    let mut number = || [0, 1, 2, 10, 256, 65535][random.below(6)];
    (number(), number())
}

/// An entry: for the AppID's host one that is to be kept, or one for each cause.
pub fn entry(random: &mut Random, host: &str) -> String {
    let relative = relative(random, host);
    match random.below(12) {
        0..=4 => origin(random, &relative),
        5 | 6 => native(random),
        7 => long(random, &relative),
        8 => other_scheme(random, &relative),
        9 => no_facet(random, &relative),
        10 => facet(random, &relative),
        _ => {
            let other = super::identifier::host(random);
            origin(random, &other)
        }
    }
}

/// Entries of a list: mostly few, seldom many, some of them repeated.
pub fn entries(random: &mut Random, host: &str) -> Vec<String> {
    let count = match random.below(100) {
        0 => 10 + random.below(50),
        1..=10 => random.below(2),
        _ => random.below(7),
    };
    let mut entries: Vec<String> = (0..count).map(|_| entry(random, host)).collect();
    if random.chance(20) && count > 0 {
        // A repeat.
        let again = entries[random.below(count)].clone();
        entries.insert(random.below(count + 1), again);
    }
    if random.chance(30) && count > 0 {
        // Another origin of a host.
        let of = entries[random.below(entries.len())].clone();
        if let Some(Facet::Web(web)) = model::facet(of.as_bytes()) {
            let sibling = sibling(random, &web);
            entries.insert(random.below(entries.len() + 1), sibling);
        }
    }
    entries
}

/// Members in any order, others between them.
fn object(random: &mut Random, mut members: Vec<(String, Json)>, levels: usize) -> Json {
    while random.chance(20) {
        members.push((other_name(random), any(random, levels)));
    }
    if random.chance(40) {
        for last in (1..members.len()).rev() {
            members.swap(last, random.below(last + 1));
        }
    }
    Json::Object(members)
}

fn version_object(random: &mut Random, (major, minor): (u16, u16), ids: Vec<Json>) -> Json {
    let number = |number: u16| Json::Raw(number.to_string());
    let version = vec![("major".to_owned(), number(major)), ("minor".to_owned(), number(minor))];
    let version = object(random, version, 3);
    object(random, vec![("version".to_owned(), version), ("ids".to_owned(), Json::Array(ids))], 3)
}

/// A version that is not this one.
fn other_version(random: &mut Random, wanted: (u16, u16)) -> (u16, u16) {
    let other = match random.below(3) {
        0 => (wanted.1, wanted.0),
        1 => (wanted.0, wanted.1.wrapping_add(1)),
        _ => version(random),
    };
    if other == wanted {
        (wanted.0 ^ 1, wanted.1)
    } else {
        other
    }
}

fn other_ids(random: &mut Random) -> Vec<Json> {
    (0..random.below(3)).map(|_| Json::Text(native(random))).collect()
}

/// A list in which an object with these entries is selected, if any are given; other objects around it.
pub fn list(random: &mut Random, wanted: (u16, u16), entries: Option<&[String]>) -> Json {
    let mut objects = Vec::new();
    while random.chance(25) {
        let (version, ids) = (other_version(random, wanted), other_ids(random));
        objects.push(version_object(random, version, ids));
    }
    if let Some(entries) = entries {
        let ids = entries.iter().map(|entry| Json::text(entry)).collect();
        objects.push(version_object(random, wanted, ids));
        while random.chance(20) {
            // After the selected one also the same version again.
            let version = if random.chance(50) { wanted } else { version(random) };
            let ids = other_ids(random);
            objects.push(version_object(random, version, ids));
        }
    }
    object(random, vec![("trustedFacets".to_owned(), Json::Array(objects))], 4)
}

/// Gives a list another shape.
pub fn misshape(random: &mut Random, list: &mut Json) {
    let wrong = |random: &mut Random| {
        Json::raw(random.pick(&["null", "true", "1", "\"ids\"", "[]", "{}", "[[]]", "[null]", "{\"a\":[]}"]))
    };
    let repeat = |random: &mut Random, object: &mut Json, name: &str| {
        let again = if random.chance(50) { object.member(name).clone() } else { wrong(random) };
        let members = object.members();
        members.insert(random.below(members.len() + 1), (name.to_owned(), again));
    };
    let spoil = |random: &mut Random, object: &mut Json, name: &str, values: &[&str]| match random.below(3) {
        0 => repeat(random, object, name),
        1 => object.members().retain(|member| member.0 != name),
        _ => *object.member(name) = Json::raw(random.pick(values)),
    };
    let objects = list.member("trustedFacets").elements();
    if objects.is_empty() || random.chance(25) {
        match random.below(3) {
            0 => *list = wrong(random),
            1 => spoil(
                random,
                list,
                "trustedFacets",
                &["null", "1", "\"\"", "{}", "{\"ids\":[]}", "[[]]", "[1]"],
            ),
            _ => {
                let wrong =
                    random.pick(&["null", "1", "\"\"", "[]", "{}", "{\"ids\":[]}", "{\"version\":{}}"]);
                objects.insert(random.below(objects.len() + 1), Json::raw(wrong));
            }
        }
        return;
    }
    let at = random.below(objects.len());
    let object = &mut objects[at];
    match random.below(4) {
        0 => spoil(random, object, "version", &["null", "1", "\"1.0\"", "[1,0]", "{}", "{\"major\":1}"]),
        1 => spoil(random, object, "ids", &["null", "1", "\"\"", "{}", "[1]", "[null]", "[[]]", "[\"\",{}]"]),
        2 => {
            let ids = object.member("ids").elements();
            ids.insert(
                random.below(ids.len() + 1),
                Json::raw(random.pick(&["null", "1", "[]", "[\"a\"]", "{}"])),
            );
        }
        _ => {
            let name = random.pick(&["major", "minor"]);
            let values = [
                "1.0", "1e0", "0e1", "-0", "-1", "65536", "65537", "100000", "4294967297",
                "18446744073709551617", "\"1\"", "null", "[1]", "{}", "0.0", "1E2",
            ];
            spoil(random, object.member("version"), name, &values);
        }
    }
}

/// The text of a list, made unreadable.
pub fn unreadable(random: &mut Random, mut list: Json) -> Vec<u8> {
    let style = Style::any(random);
    let mut fault = |random: &mut Random, fault: Json| {
        // In an entry's place, or as another member.
        let objects = list.member("trustedFacets").elements();
        if objects.is_empty() || random.chance(50) {
            let members = list.members();
            members.insert(random.below(members.len() + 1), (other_name(random), fault));
        } else {
            let at = random.below(objects.len());
            let ids = objects[at].member("ids").elements();
            ids.insert(random.below(ids.len() + 1), fault);
        }
        list.write(random, style).into_bytes()
    };
    match random.below(8) {
        0..=2 => {
            let raw = Json::raw(random.pick(&UNREADABLE));
            fault(random, raw)
        }
        3 => {
            // A name that is no string of JSON.
            let raw =
                Json::Raw(format!("{{{}:1}}", random.pick(&["1", "a", "\"\\ud800\"", "null", "\"\\x\""])));
            fault(random, raw)
        }
        4 => {
            // 17 deep as a member; deeper as an entry.
            let deep = nest(random, 16);
            fault(random, deep)
        }
        5 => {
            let text = fault(random, Json::text("\u{10fffd}"));
            let at = text.windows(4).position(|four| four == "\u{10fffd}".as_bytes());
            match at {
                Some(at) => [&text[..at], random.pick(&NO_UTF8), &text[at + 4..]].concat(),
                None => [b"\xef\xbb\xbf", &text[..]].concat(),
            }
        }
        6 => {
            let text = list.write(random, style).into_bytes();
            match random.below(3) {
                0 => [b"\xef\xbb\xbf", &text[..]].concat(),
                1 => random.pick(&[&b""[..], b" ", b"\n\t"]).to_vec(),
                _ => [&text[..], random.pick(&[&b"x"[..], b",", b"}", b"{}", b"\0", b"//", b" 1"])].concat(),
            }
        }
        _ => {
            let text = list.write(random, style).into_bytes();
            let end = text.iter().rposition(|&b| b == b'}').expect("an object");
            text[..random.below(end + 1)].to_vec()
        }
    }
}

/// The text, made longer than 65,536 bytes by blanks, or in seldom cases just not.
pub fn lengthen(random: &mut Random, mut text: Vec<u8>) -> Vec<u8> {
    let length = 65_537 + random.below(2) - usize::from(random.chance(2));
    text.resize(length.max(text.len()), b' ');
    text
}
