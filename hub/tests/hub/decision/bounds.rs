//! Both sides of every bound on identifiers, expected values by hand from document 01.

use crate::{
    case::Case,
    hand::{case, APP},
    make::record::redirect,
};

/// A host of this many bytes under example.com.
fn host(length: usize) -> String {
    let end = "example.com";
    let mut host = "l.".repeat((length - end.len()) / 2);
    if (length - end.len()) % 2 == 1 {
        host.insert(0, 'l');
    }
    host + end
}

/// An AppID of this many bytes.
fn appid(length: usize, start: &str) -> String {
    format!("{start}{}", "t".repeat(length - start.len()))
}

#[test]
fn an_appid_has_at_most_2048_bytes() {
    for (length, fits) in
        [(2047, true), (2048, true), (2049, false), (2050, false), (4096, false), (70_000, false)]
    {
        let long = |start: &str| Case { appid: appid(length, start).into(), ..case(&[APP]) };
        for start in ["https://www.example.com/", "https://www.example.com:443?"] {
            if fits {
                long(start).listed_at(0);
                Case { record: Vec::new(), ..long(start) }.decides(5);
            } else {
                long(start).refused(2);
            }
        }
        // Too long is bad, whatever it begins with.
        for start in ["http://a.b/", APP, ""] {
            long(start).refused(if fits { 3 } else { 2 });
        }
    }
}

#[test]
fn a_location_has_at_most_2048_bytes() {
    for (length, code) in [(2047, 5), (2048, 5), (2049, 106), (65535, 106)] {
        let text = appid(length, "https://b.example/");
        let record = redirect(302, 1, 0, length as u16);
        Case { record, text: text.into(), ..case(&[APP]) }.decides(code);
    }
}

#[test]
fn ports_are_from_1_to_65535_without_leading_zero() {
    let good =
        ["1", "9", "10", "80", "443", "444", "999", "9999", "10000", "59999", "65529", "65530", "65535"];
    let bad = [
        "", "0", "00", "01", "0443", "00443", "65536", "65540", "65600", "66000", "70000", "99999", "100000",
        "655350", "4294967296", "18446744073709551617", "1a", "a", "-1", "+1", " 1", "1 ", "1:1",
    ];
    let ports = good.map(|port| (port, true)).into_iter().chain(bad.map(|port| (port, false)));
    for (port, good) in ports {
        let origin = format!("https://a.example.com:{port}");
        let kept = [if port == "443" { "https://a.example.com" } else { &origin }];
        for entry in [origin.clone(), format!("{origin}/")] {
            case(&[&entry]).counts(if good { [1, 0, 0, 0, 0] } else { [0, 0, 0, 1, 0] });
            case(&[&entry]).keeps(&kept[..usize::from(good)]);
            let caller = Case { caller: entry.clone().into(), ..case(&["https://a.example.com"]) };
            caller.decides(match (good, port) {
                (true, "443") => 4,
                (true, _) => 114,
                (false, _) => 101,
            });
            Case { caller: entry.clone().into(), ..case(&[entry]) }.decides(if good { 4 } else { 101 });
        }
        for tail in ["", "/", "?", "/x:0"] {
            let appid = Case { appid: format!("{origin}{tail}").into(), ..case(&[APP]) };
            appid.decides(if good { 4 } else { 102 });
        }
    }
}

#[test]
fn every_port_is_its_own_and_443_the_absent_one() {
    let origin = |port: u32| format!("https://a.example.com:{port}");
    for port in 1..=65535u32 {
        // Its neighbours, and a port with the same last byte.
        let others = [port - 1, port + 1, port ^ 256].into_iter().filter(|other| (1..=65535).contains(other));
        let mut ids: Vec<String> = others.map(origin).collect();
        let caller = origin(port).into_bytes();
        Case { caller: caller.clone(), ..case(&ids) }.decides(114);
        ids.push(origin(port));
        Case { caller, ..case(&ids) }.listed_at(ids.len() as u32 - 1);
        let absent = Case { caller: b"https://a.example.com".into(), ..case(&[origin(port)]) };
        absent.decides(if port == 443 { 4 } else { 114 });
    }
}

#[test]
fn hosts_in_identifiers_have_at_most_253_bytes() {
    for (length, fits) in [(252, true), (253, true), (254, false), (255, false)] {
        let origin = format!("https://{}:65535/", host(length));
        case(&[&origin]).counts(if fits { [1, 0, 0, 0, 0] } else { [0, 0, 0, 1, 0] });
        Case { caller: origin.clone().into(), ..case(&[&origin]) }.decides(if fits { 4 } else { 101 });
        Case { appid: origin.into(), ..case(&[APP]) }.decides(if fits { 4 } else { 102 });
    }
}

#[test]
fn an_ios_name_has_from_1_to_255_bytes() {
    for (length, fits) in [(0, false), (1, true), (254, true), (255, true), (256, false), (257, false)] {
        let identity = format!("ios:bundle-id:{}", "n".repeat(length));
        case(&[&identity]).counts(if fits { [1, 0, 0, 0, 0] } else { [0, 0, 0, 1, 0] });
        Case { caller: identity.clone().into(), ..case(&[&identity]) }.decides(if fits { 4 } else { 101 });
    }
}

#[test]
fn an_android_hash_has_exactly_27_characters() {
    for length in [0, 1, 26, 27, 28, 43] {
        let identity = format!("android:apk-key-hash:{}", "h".repeat(length));
        case(&[&identity]).counts(if length == 27 { [1, 0, 0, 0, 0] } else { [0, 0, 0, 1, 0] });
        Case { caller: identity.clone().into(), ..case(&[&identity]) }.decides(if length == 27 {
            4
        } else {
            101
        });
    }
}

/// Whether a byte stands among these ranges.
fn within(byte: u8, ranges: &[&str]) -> bool {
    ranges.iter().any(|range| {
        let (first, last) = (range.as_bytes()[0], range.as_bytes()[range.len() - 1]);
        (first..=last).contains(&byte)
    })
}

#[test]
fn every_byte_in_every_identifier() {
    for byte in 0..=255u8 {
        let identity = |before: &str, after: &str| [before.as_bytes(), &[byte], after.as_bytes()].concat();
        let caller = |bytes: Vec<u8>, good: bool| {
            let listed = String::from_utf8(bytes.clone()).unwrap_or_default();
            Case { caller: bytes, ..case(&[listed]) }.decides(if good { 4 } else { 101 });
        };
        let alphanumeric = within(byte, &["A-Z", "a-z", "0-9"]);
        let hash = alphanumeric || within(byte, &["+", "/"]);
        caller(identity("android:apk-key-hash:", &"h".repeat(26)), hash);
        caller(identity("android:apk-key-hash:hhhhhhhhhhhhhhhhhhhhhhhhhh", ""), hash);
        let name = alphanumeric || within(byte, &["-", "."]);
        caller(identity("ios:bundle-id:", ""), name);
        caller(identity("ios:bundle-id:a", "b"), name);
        caller(identity("https://a", "b.example.com"), name);
        caller(identity("https://", "b.example.com"), alphanumeric);
        caller(identity("https://a.example.com:44", ""), within(byte, &["0-9", "/"]));
        caller(identity("https://a.example.com:", "1"), within(byte, &["1-9"]));
        let appid = |bytes: Vec<u8>, good: bool| {
            Case { appid: bytes, ..case(&[APP]) }.decides(if good { 4 } else { 102 });
        };
        let tail = within(byte, &["!-\"", "$-~"]);
        appid(identity("https://a.b/", ""), tail);
        appid(identity("https://a.b?", "x"), tail);
        appid(identity("https://a.b:1/x", "y"), tail);
        appid(identity("https://a.b", ""), alphanumeric || within(byte, &["/", "?"]));
    }
}
