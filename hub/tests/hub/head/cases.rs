//! Cases written by hand from the request: what is written, names, values, repeated lines.

use super::{answer, found, head_of, ok, redirect, refused, AUTHORIZED, LOCATION, TYPE, URL};
use crate::model::head::{is_content, is_tchar};
use facets_hub::{read_head, Head, Refusal};

// ---- what is written

#[test]
fn a_redirect_byte_for_byte() {
    let head = b"HTTP/1.1 302 Found\r\nLocation: https://b.example/f\r\nFIDO-AppID-Redirect-Authorized: true\r\n\r\n";
    let (mut item, mut text) = ([0xEE; 10], [0xEE; 22]);
    assert_eq!(read_head(head, 0x0A0B, &mut item, &mut text), Ok(Head::Redirect { location: 19 }));
    // Kind 1, status 302, header seen, start and length; the bytes behind remain.
    assert_eq!(item, [1, 1, 46, 1, 0x0A, 0x0B, 0, 19, 0xEE, 0xEE]);
    assert_eq!(&text, b"https://b.example/f\xEE\xEE\xEE");

    let head = b"HTTP/1.0 399 \r\nlocation:\r\n\r\n";
    let (mut item, mut text) = ([0xEE; 8], []);
    assert_eq!(read_head(head, 65_535, &mut item, &mut text), Ok(Head::Redirect { location: 0 }));
    assert_eq!(item, [1, 1, 143, 0, 255, 255, 0, 0]);
}

#[test]
fn an_answer_byte_for_byte() {
    let head = b"HTTP/1.1 200 OK\r\nContent-Type: application/fido.trusted-apps+json\r\n\r\n";
    let (mut item, mut text) = ([0xEE; 10], [0xEE; 3]);
    assert_eq!(read_head(head, u32::MAX, &mut item, &mut text), Ok(Head::Answer));
    // Kind 2, status 200, content type seen; the second output remains.
    assert_eq!(item, [2, 0, 200, 1, 0xEE, 0xEE, 0xEE, 0xEE, 0xEE, 0xEE]);
    assert_eq!(text, [0xEE; 3]);

    let mut item = [0xEE; 4];
    assert_eq!(read_head(b"HTTP/1.1 999 \r\n\r\n", 7, &mut item, &mut []), Ok(Head::Answer));
    assert_eq!(item, [2, 3, 231, 0]);
}

#[test]
fn a_refusal_changes_no_byte_and_16_comes_before_15() {
    let bad = b"HTTP/1.1 302 Found\r\n\r\n";
    let good = b"HTTP/1.1 302 Found\r\nLocation: ab\r\n\r\n";
    for (head, start, item, text, refusal) in [
        (&bad[..], 0, 8, 100, Refusal::BadHead),
        (bad, 65_536, 7, 0, Refusal::BadHead),
        (good, 0, 7, 2, Refusal::Full),
        (good, 0, 8, 1, Refusal::Full),
        (good, 65_536, 8, 2, Refusal::Full),
        (b"HTTP/1.1 200 OK\r\n\r\n", 0, 3, 0, Refusal::Full),
    ] {
        let (mut item, mut text) = (vec![0xEE; item], vec![0xEE; text]);
        assert_eq!(read_head(head, start, &mut item, &mut text), Err(refusal));
        assert!(item.iter().chain(&text).all(|&byte| byte == 0xEE));
    }
}

// ---- names

/// The bytes of a line with one of them exchanged, and whether it is the same line without case.
fn exchanged(line: &str) -> impl Iterator<Item = (Vec<u8>, bool)> + '_ {
    let places = (0..line.len()).flat_map(|at| (0..=255u8).map(move |byte| (at, byte)));
    places.map(|(at, byte)| {
        let mut other = line.as_bytes().to_vec();
        let same = other[at].eq_ignore_ascii_case(&byte);
        other[at] = byte;
        (other, same)
    })
}

/// Whether what stands before the first colon, or all, is a name.
fn begins_with_a_name(line: &[u8]) -> bool {
    let name = line.split(|&byte| byte == b':').next().unwrap_or_default();
    !name.is_empty() && name.iter().all(|&byte| is_tchar(byte.into()))
}

/// The letter's other case, or another byte, at every place of each name that counts.
#[test]
fn names_compare_without_case_and_otherwise_in_every_byte() {
    for (name, same) in exchanged("FIDO-AppID-Redirect-Authorized") {
        let head = found(&[[&name, &b": true"[..]].concat(), LOCATION.into()]);
        match begins_with_a_name(&name) {
            true => redirect(head, 302, same, URL),
            false => refused(head),
        }
    }
    for (name, same) in exchanged("Location") {
        let line = [&name, &b": x"[..]].concat();
        match same {
            true => redirect(found(&[&line]), 302, false, "x"),
            false => refused(found(&[&line])),
        }
        // Beside a Location it is a second one.
        let head = found(&[line, LOCATION.into()]);
        match begins_with_a_name(&name) && !same {
            true => redirect(head, 302, false, URL),
            false => refused(head),
        }
    }
    for (name, same) in exchanged("Content-Type") {
        let head = ok(&[[&name, &b": application/fido.trusted-apps+json"[..]].concat()]);
        match begins_with_a_name(&name) {
            true => answer(head, 200, same),
            false => refused(head),
        }
    }
}

#[test]
fn names_that_only_begin_or_end_alike_do_not_count() {
    for (before, after) in [("", "s"), ("", "-"), ("X-", ""), ("", "1"), ("-", ""), ("!", ""), ("a", "b")] {
        let name = |name: &str, value: &str| format!("{before}{name}{after}: {value}");
        refused(found(&[name("Location", URL)]));
        redirect(found(&[&name("Location", "x"), LOCATION]), 302, false, URL);
        let authorized = name("FIDO-AppID-Redirect-Authorized", "true");
        redirect(found(&[&authorized, LOCATION]), 302, false, URL);
        let right = name("Content-Type", "application/fido.trusted-apps+json");
        answer(ok(&[right]), 200, false);
    }
    for name in ["Locatio", "ocation", "L", "Loc-ation"] {
        refused(found(&[format!("{name}: x")]));
    }
    // A value that looks like a line.
    refused(found(&["X: Location: https://a.b/"]));
    redirect(found(&["Location: Location: a"]), 302, false, "Location: a");
    redirect(found(&["X: FIDO-AppID-Redirect-Authorized: true", LOCATION]), 302, false, URL);
}

// ---- values

/// Blanks that are dropped around a value.
const BLANKS: [&str; 7] = ["", " ", "\t", "  ", "\t\t", " \t ", "\t    \t\t "];

#[test]
fn blanks_around_a_value_are_dropped() {
    for before in BLANKS {
        for after in BLANKS {
            let head = found(&[
                format!("Location:{before}{URL}{after}"),
                format!("FIDO-AppID-Redirect-Authorized:{before}true{after}"),
            ]);
            redirect(head, 302, true, URL);
            answer(
                ok(&[format!("Content-Type:{before}application/fido.trusted-apps+json{after}")]),
                200,
                true,
            );
            // Blanks inside stay, and a value of blanks alone is empty.
            redirect(found(&[format!("Location:{before}a \t b{after}")]), 302, false, "a \t b");
            redirect(found(&[format!("Location:{before}{after}")]), 302, false, "");
            redirect(
                found(&[format!("FIDO-AppID-Redirect-Authorized:{before}{after}"), LOCATION.into()]),
                302,
                false,
                URL,
            );
            answer(ok(&[format!("Content-Type:{before}{after}")]), 200, false);
        }
    }
    // Other bytes that look like blanks are not.
    redirect(found(&[&b"Location:\xa0a\xa0"[..]]), 302, false, b"\xa0a\xa0");
    redirect(found(&[&b"Location: \x85"[..]]), 302, false, b"\x85");
}

#[test]
fn the_authorized_header_counts_only_as_true() {
    for value in [
        "True", "TRUE", "tRUE", "truE", "false", "tru", "rue", "truee", "true1", "true.", "true;", "true,",
        "true,true", "true true", "t rue", "\"true\"", "'true'", "1", "yes", "", "true\u{a0}", "\u{a0}true",
        "\u{feff}true", "=true", ":true", "true:",
    ] {
        redirect(found(&[&format!("FIDO-AppID-Redirect-Authorized: {value}"), LOCATION]), 302, false, URL);
    }
    for (value, _) in exchanged("true") {
        if value.iter().all(|&byte| is_content(byte.into())) && value != b"true" {
            let line = [b"FIDO-AppID-Redirect-Authorized: ", &value[..]].concat();
            redirect(found(&[line, LOCATION.into()]), 302, false, URL);
        }
    }
    redirect(found(&[LOCATION]), 302, false, URL);
    redirect(found(&[LOCATION, AUTHORIZED]), 302, true, URL);
    redirect(found(&[AUTHORIZED, LOCATION]), 302, true, URL);
}

#[test]
fn the_content_type_counts_up_to_its_first_semicolon() {
    let right = "application/fido.trusted-apps+json";
    for end in [
        "", ";", ";;", "; charset=utf-8", ";charset=utf-8", " ;", "\t;", " \t ;x", "  ; a; b",
        ";application/json", "; ", ";\u{fc}", " ; \t",
    ] {
        for value in [right.to_owned(), right.to_uppercase(), "Application/Fido.Trusted-Apps+Json".to_owned()]
        {
            answer(ok(&[format!("Content-Type: {value}{end}")]), 200, true);
        }
    }
    for value in [
        "",
        ";",
        ";;",
        ";application/fido.trusted-apps+json",
        " ; application/fido.trusted-apps+json",
        "; application/fido.trusted-apps+json",
        "application/json",
        "application/json; application/fido.trusted-apps+json",
        "text/html",
        "application/fido.trusted-apps+jso",
        "application/fido.trusted-apps+jsonx",
        "application/fido.trusted-apps+json x",
        "application/fido.trusted-apps+json x;",
        "application/fido.trusted-apps+json,",
        "application/fido.trusted-apps+json, application/fido.trusted-apps+json",
        "application/fido.trusted-apps+json\u{a0};",
        "application/fido.trusted-apps +json",
        "application /fido.trusted-apps+json",
        "application/ fido.trusted-apps+json",
        "\"application/fido.trusted-apps+json\"",
        "xapplication/fido.trusted-apps+json",
        "fido.trusted-apps+json",
        "application/fido.trusted-apps+json/x",
        "application/fido.trusted-apps",
        "application",
    ] {
        answer(ok(&[format!("Content-Type: {value}")]), 200, false);
    }
    for (value, same) in exchanged(right) {
        let head = ok(&[[b"Content-Type: ", &value[..]].concat()]);
        match value.iter().all(|&byte| is_content(byte.into())) {
            true => answer(head, 200, same),
            false => refused(head),
        }
    }
    answer(ok::<&str>(&[]), 200, false);
    // The status does not matter to it.
    answer(head_of("HTTP/1.1 404 Not Found", &[TYPE]), 404, true);
}

// ---- repeated lines

#[test]
fn of_repeated_lines_the_first_counts() {
    let name = "FIDO-AppID-Redirect-Authorized";
    let other_case = "fido-appid-REDIRECT-authorized";
    for (values, seen) in [
        (vec!["true", "false"], true),
        (vec!["false", "true"], false),
        (vec!["true", "true"], true),
        (vec!["", "true"], false),
        (vec![" ", "true"], false),
        (vec!["True", "true"], false),
        (vec!["true", ""], true),
        (vec!["false", "true", "true"], false),
        (vec!["true", "false", "false"], true),
    ] {
        for second in [name, other_case] {
            let line = |at: usize| format!("{}: {}", if at == 0 { name } else { second }, values[at]);
            let lines: Vec<String> = (0..values.len()).map(line).collect();
            // The Location and other lines at every place between them.
            for at in 0..=lines.len() {
                let mut lines = lines.clone();
                lines.insert(at, LOCATION.to_owned());
                redirect(found(&lines), 302, seen, URL);
                lines.insert(at, "Server: true".to_owned());
                redirect(found(&lines), 302, seen, URL);
            }
        }
    }
    let right = "application/fido.trusted-apps+json";
    for (values, seen) in [
        ([right, "text/html"], true),
        (["text/html", right], false),
        ([right, right], true),
        (["", right], false),
        ([";", right], false),
        ([right, ""], true),
    ] {
        for names in [["Content-Type", "content-type"], ["CONTENT-TYPE", "Content-Type"]] {
            let [one, other] = [0, 1].map(|at| format!("{}: {}", names[at], values[at]));
            answer(ok(&[&one, &other]), 200, seen);
            answer(ok(&["a: b", &one, "c: d", &other, "e: f"]), 200, seen);
        }
    }
}

#[test]
fn a_redirect_needs_exactly_one_location() {
    for (fields, location) in [
        (vec!["Location: a"], Some("a")),
        (vec!["location: a", "Server: x"], Some("a")),
        (vec!["Server: x", "LOCATION: a"], Some("a")),
        (vec!["Location:"], Some("")),
        (vec!["Location: \t "], Some("")),
        (vec!["Location: not a URL; true"], Some("not a URL; true")),
        (vec!["Content-Location: a", "Location: b"], Some("b")),
        (vec![], None),
        (vec!["Content-Location: a"], None),
        (vec!["Location: a", "Location: a"], None),
        (vec!["Location: a", "Location: b"], None),
        (vec!["Location: a", "location: a"], None),
        (vec!["Location:", "Location: a"], None),
        (vec!["Location: a", "Location:"], None),
        (vec!["Location:", "Location:"], None),
        (vec!["Location: a", "Server: x", "LOCATION: b", "Location: c"], None),
    ] {
        for status in ["300", "301", "302", "303", "304", "307", "308", "399"] {
            let head = head_of(format!("HTTP/1.1 {status} "), &fields);
            match location {
                Some(location) => redirect(head, status.parse().expect("a status"), false, location),
                None => refused(head),
            }
        }
        // In an answer they mean nothing.
        for status in ["000", "200", "299", "400", "999"] {
            let head = head_of(format!("HTTP/1.1 {status} "), &fields);
            answer(head, status.parse().expect("a status"), false);
        }
    }
}

#[test]
fn what_is_not_asked_for_means_nothing() {
    // The authorized header of an answer, right, wrong or repeated.
    for authorized in ["true", "false", ""] {
        let line = format!("FIDO-AppID-Redirect-Authorized: {authorized}");
        answer(ok(&[&line, TYPE]), 200, true);
        answer(ok(&[&line, &line]), 200, false);
    }
    // The content type of a redirect.
    for lines in [vec![TYPE], vec!["Content-Type: text/html"], vec!["Content-Type:", TYPE]] {
        redirect(found(&[&lines[..], &[LOCATION]].concat()), 302, false, URL);
        redirect(found(&[&[AUTHORIZED, LOCATION], &lines[..]].concat()), 302, true, URL);
    }
}
