//! The grammar of RFC 9112, taken strictly: status line, field lines and their ends, by hand and over all bytes.

use super::{answer, found, head_of, ok, redirect, refused, AUTHORIZED, LOCATION, TYPE, URL};
use crate::model::head::{is_content, is_tchar};

// ---- the status line

#[test]
fn every_status() {
    for status in 0..=999 {
        let head = head_of(format!("HTTP/1.1 {status:03} "), &[LOCATION, AUTHORIZED, TYPE]);
        if (300..=399).contains(&status) {
            redirect(head, status, true, URL);
            refused(head_of(format!("HTTP/1.1 {status:03} "), &[AUTHORIZED, TYPE]));
        } else {
            answer(head, status, true);
            answer(head_of(format!("HTTP/1.1 {status:03} "), &[AUTHORIZED]), status, false);
        }
    }
}

#[test]
fn status_lines_that_are_read() {
    for line in [
        "HTTP/1.1 200 OK",
        "HTTP/1.1 200 ",
        "HTTP/1.1 200  ",
        "HTTP/1.1 200  OK",
        "HTTP/1.1 200 \t",
        "HTTP/1.1 200 OK ",
        "HTTP/1.1 200 OK\t\tindeed",
        "HTTP/1.1 200 200",
        "HTTP/1.1 200 OK: HTTP/1.1 404 Not Found",
        "HTTP/1.1 200 :",
        "HTTP/1.1 200 gr\u{fc}n",
        "HTTP/1.0 200 OK",
        "HTTP/0.9 200 OK",
        "HTTP/9.9 200 OK",
        "HTTP/0.0 200 OK",
        "HTTP/2.0 200 OK",
        "HTTP/3.1 200 OK",
    ] {
        answer(head_of(line, &[TYPE]), 200, true);
        answer(head_of::<&str>(line, &[]), 200, false);
        redirect(head_of(line.replacen(" 200", " 302", 1), &[LOCATION]), 302, false, URL);
    }
}

#[test]
fn status_lines_that_are_not() {
    for line in [
        "",
        "HTTP",
        "HTTP/",
        "HTTP/1.1",
        "HTTP/1.1 ",
        "HTTP/1.1 2",
        "HTTP/1.1 20",
        // The second SP is missing.
        "HTTP/1.1 200",
        "HTTP/1.1 200\tOK",
        "HTTP/1.1 200OK",
        "HTTP/1.1 200:OK",
        "HTTP/1.1 200-OK",
        // The first SP is another, or there are two.
        "HTTP/1.1\t200 OK",
        "HTTP/1.1  200 OK",
        "HTTP/1.1200 OK",
        // The name's case, and other names.
        "http/1.1 200 OK",
        "Http/1.1 200 OK",
        "HTTp/1.1 200 OK",
        "hTTP/1.1 200 OK",
        "HTTPS/1.1 200 OK",
        "HTP/1.1 200 OK",
        "ICY 200 OK",
        "XHTTP/1.1 200 OK",
        "GET / HTTP/1.1",
        // Each part of the version is one digit.
        "HTTP/1 200 OK",
        "HTTP/11 200 OK",
        "HTTP/1.10 200 OK",
        "HTTP/10.1 200 OK",
        "HTTP/1.1.1 200 OK",
        "HTTP/.1 200 OK",
        "HTTP/1. 200 OK",
        "HTTP/. 200 OK",
        "HTTP/1,1 200 OK",
        "HTTP/a.1 200 OK",
        "HTTP/1.a 200 OK",
        "HTTP/-1.1 200 OK",
        "HTTP 1.1 200 OK",
        "HTTP//1.1 200 OK",
        // The status is three digits.
        "HTTP/1.1 2000 OK",
        "HTTP/1.1 0200 OK",
        "HTTP/1.1 20 OK",
        "HTTP/1.1 2 OK",
        "HTTP/1.1  OK",
        "HTTP/1.1 20x OK",
        "HTTP/1.1 x00 OK",
        "HTTP/1.1 2x0 OK",
        "HTTP/1.1 +20 OK",
        "HTTP/1.1 -20 OK",
        "HTTP/1.1 2.0 OK",
        "HTTP/1.1 OK 200",
        "HTTP/1.1 \u{0662}00 OK",
        // Blanks before it.
        " HTTP/1.1 200 OK",
        "\tHTTP/1.1 200 OK",
        // A field line in its place.
        "Content-Type: application/fido.trusted-apps+json",
    ] {
        refused(head_of(line, &[TYPE]));
        refused(head_of(line, &[LOCATION, AUTHORIZED]));
        refused(head_of::<&str>(line, &[]));
    }
    refused("");
    refused("\r\n");
    refused("\r\n\r\n");
}

#[test]
fn every_byte_at_every_place_of_a_status_line() {
    for (at, good) in b"HTTP/1.1 200 ".iter().enumerate() {
        for byte in 0..=255u8 {
            let mut line = *b"HTTP/1.1 200 ";
            line[at] = byte;
            let head = head_of(line, &[LOCATION]);
            let digit = good.is_ascii_digit() && byte.is_ascii_digit();
            match (at, byte) {
                (9, b'3') => redirect(head, 300, false, URL),
                (9..=11, _) if digit => {
                    let status = std::str::from_utf8(&line[9..12]).expect("ASCII");
                    answer(head, status.parse().expect("a status"), false);
                }
                _ if digit || byte == *good => answer(head, 200, false),
                _ => refused(head),
            }
        }
    }
}

#[test]
fn every_byte_in_a_reason() {
    for byte in 0..=255u8 {
        for reason in [vec![byte], vec![b'O', byte, b'K'], vec![b'O', b'K', byte], vec![byte, b'O']] {
            let head = head_of([b"HTTP/1.1 200 ", &reason[..]].concat(), &[TYPE]);
            if is_content(byte.into()) {
                answer(head, 200, true);
            } else {
                refused(head);
            }
        }
    }
}

// ---- field lines

#[test]
fn field_lines_that_are_none() {
    // obs-fold, and a first line that begins with a blank.
    let folded = [" folded", "\tfolded", " ", "\t", " a: b", "\ta: b"];
    let blank_before_colon = ["a : b", "a\t: b", "a  : b", "Location : https://a.b/", "a b: c"];
    let no_name = [":", ": b", ":b", "::"];
    let no_colon = ["a", "Location", "a b", "a;b", "HTTP/1.1 200 OK", ""];
    for line in [&folded[..], &blank_before_colon, &no_name, &no_colon].concat() {
        for fields in [vec![line], vec![line, LOCATION], vec![LOCATION, line], vec![LOCATION, line, TYPE]] {
            refused(found(&fields));
            refused(ok(&fields));
        }
    }
    // A Location that is folded.
    refused(found(&["Location: https://a.b", " /c"]));
    refused(found(&["Location:", " https://a.b/"]));
    refused(found(&["Location:", "\thttps://a.b/"]));
}

#[test]
fn every_byte_in_a_name() {
    for byte in 0..=255u8 {
        for (before, after) in [("", ""), ("", "x"), ("x", "x"), ("x", "")] {
            let line = [before.as_bytes(), &[byte], after.as_bytes(), b": v"].concat();
            // A colon ends the name, where there is one.
            if is_tchar(byte.into()) || byte == b':' && !before.is_empty() {
                redirect(found(&[&line[..], LOCATION.as_bytes()]), 302, false, URL);
                answer(ok(&[&line[..], TYPE.as_bytes()]), 200, true);
            } else {
                refused(found(&[&line[..], LOCATION.as_bytes()]));
                refused(ok(&[TYPE.as_bytes(), &line[..]]));
            }
        }
    }
}

#[test]
fn every_byte_in_a_value() {
    for byte in 0..=255u8 {
        for value in
            [vec![byte], vec![b'a', byte, b'b'], vec![b'a', byte], vec![byte, b'b'], vec![b':', byte]]
        {
            let other = [b"x:", &value[..]].concat();
            let location = [b"Location: ", &value[..]].concat();
            if is_content(byte.into()) {
                answer(ok(&[&other[..], TYPE.as_bytes()]), 200, true);
                // A Location's bytes are copied, not judged.
                let blank = byte == b' ' || byte == b'\t';
                let kept = value.iter().copied().filter(|&of| !blank || of != byte || value.len() == 3);
                redirect(found(&[&location[..]]), 302, false, kept.collect::<Vec<u8>>());
            } else {
                refused(ok(&[&other[..], TYPE.as_bytes()]));
                refused(found(&[&location[..]]));
            }
        }
    }
}

// ---- line ends

#[test]
fn every_line_ends_in_crlf() {
    for lines in [
        ["HTTP/1.1 302 Found", "Location: https://b.example/f", "Server: x", ""],
        ["HTTP/1.1 200 OK", "Content-Type: application/fido.trusted-apps+json", "Server: x", ""],
        ["HTTP/1.1 302 ", "Location:", "Server:", ""],
    ] {
        for end in [
            "\n", "\r", "\r\r\n", "\n\r", "\r\n\n", "\r\n\r", "\n\r\n", "\r\n\r\n", "\r\n ", "\0\r\n",
            "\x0b\r\n", "\x0c", "\u{85}\n",
        ] {
            for other in 0..lines.len() {
                let mut ends = ["\r\n"; 4];
                ends[other] = end;
                let ended = lines.iter().zip(ends).map(|(line, end)| format!("{line}{end}"));
                refused(ended.collect::<String>());
            }
            refused(lines.map(|line| format!("{line}{end}")).concat());
        }
    }
}

#[test]
fn no_line_holds_a_cr_or_an_lf() {
    for break_ in ["\r", "\n", "\n\r", "\r\r", "\n\n"] {
        for line in ["HTTP/1.1 302 Found", LOCATION, AUTHORIZED] {
            for at in 0..=line.len() {
                let mut lines = ["HTTP/1.1 302 Found", LOCATION, AUTHORIZED].map(str::to_owned);
                let changed = lines.iter_mut().find(|other| *other == line).expect("the line");
                changed.insert_str(at, break_);
                refused(head_of(&lines[0], &lines[1..]));
            }
        }
    }
}

#[test]
fn the_empty_line_is_the_last_and_the_status_line_the_first() {
    let heads = [
        found(&[LOCATION, AUTHORIZED]),
        ok(&[TYPE]),
        ok::<&str>(&[]),
        head_of("HTTP/1.1 200 ", &["a:"]),
        head_of("HTTP/1.1 302 ", &["Location:"]),
    ];
    for head in heads {
        for length in 0..head.len() {
            refused(&head[..length]);
        }
        for byte in 0..=255 {
            refused([&head[..], &[byte]].concat());
            refused([&[byte], &head[..]].concat());
        }
        for other in
            ["\r\n", "\r\n\r\n", "\n", "a: b\r\n", "a: b\r\n\r\n", "{}", "HTTP/1.1 100 Continue\r\n\r\n"]
        {
            refused([&head, other.as_bytes()].concat());
            refused([other.as_bytes(), &head].concat());
        }
        refused([&head[..], &head].concat());
    }
    // An empty line among the others.
    refused(ok(&["", TYPE]));
    refused(ok(&[TYPE, ""]));
    refused(found(&[LOCATION, "", AUTHORIZED]));
}
