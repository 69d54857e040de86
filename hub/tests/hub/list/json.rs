//! RFC 8259, by hand and over all bytes.

use crate::{
    case::Case,
    check,
    hand::{body, body_of, case},
    make::json::{NO_UTF8, UNREADABLE},
    model::decision::code,
};

const NONE: [&str; 0] = [];

fn with_body(body: impl AsRef<[u8]>) -> Case {
    Case { body: body.as_ref().to_vec(), ..case(&NONE) }
}

/// Bodies that hold this value in every place: in an array, as a skipped member's value, as an entry, in a version.
fn bodies(value: &[u8]) -> Vec<Vec<u8>> {
    let places = [
        ("[0,", "]"),
        (r#"{"x":"#, r#","trustedFacets":[{"version":{"major":1,"minor":0},"ids":[]}]}"#),
        (r#"{"trustedFacets":[{"version":{"major":1,"minor":0},"ids":["a","#, r#"]}]}"#),
        (r#"{"trustedFacets":[{"version":{"major":1,"minor":0},"ids":[]},{"x":"#, "}]}"),
        (r#"{"trustedFacets":[{"version":{"major":1,"minor":"#, r#"},"ids":[]}]}"#),
    ];
    places.map(|(before, after)| [before.as_bytes(), value, after.as_bytes()].concat()).into()
}

/// Asserts that the value is readable in every place, or in none.
#[track_caller]
fn readable(value: &[u8], expected: bool) {
    // Alone, it has another shape at best.
    with_body(value).refused(if expected { 11 } else { 10 });
    for body in bodies(value) {
        let case = with_body(body);
        let unreadable = [
            code(check::decision(&case)) == 110,
            check::cleaning(&case, &[b'#'; 200]) == Err(10),
            check::tallying(&case) == Err(10),
        ];
        assert_eq!(unreadable, [!expected; 3], "{case:?}");
    }
}

#[test]
fn what_is_no_json_is_unreadable_in_every_place() {
    for value in UNREADABLE {
        readable(value.as_bytes(), false);
    }
    for value in
        ["", " ", "\n", "[", "]", "{", "}", "{]", "[}", "[[]", "{\"a\"}", "{\"a\":}", "{,}", "1 2", "a"]
    {
        readable(value.as_bytes(), false);
    }
    for bytes in NO_UTF8 {
        readable(bytes, false);
        readable(&[b"\"", bytes, b"\""].concat(), false);
        readable(&[b"{\"", bytes, b"\":0}"].concat(), false);
    }
}

#[test]
fn what_is_json_is_readable_in_every_place() {
    for value in [
        "0",
        "-0",
        "1",
        "10",
        "-10",
        "0.0",
        "0.5",
        "-0.50",
        "1e0",
        "1E0",
        "1e+0",
        "1e-0",
        "1e00",
        "0e99999",
        "1e999",
        "123456789012345678901234567890",
        "1.000000000000000000000000000000000000001e-400",
        "true",
        "false",
        "null",
        "\"\"",
        "\"/\"",
        "\"\u{7f}\"",
        "\"\u{80}\"",
        "\"\u{d7ff}\u{e000}\u{ffff}\u{10ffff}\"",
        "[]",
        "[ ]",
        "{}",
        "{ }",
        "[1]",
        "[1,2]",
        "{\"\":0}",
        "{\"a\":0,\"a\":0}",
        "\t[\r1\n,2 ]\n",
        "\"\\\"\\\\\\/\\b\\f\\n\\r\\t\"",
        "\"\\u0000\\uffff\\uD800\\uDC00\\udbff\\udfff\"",
        "\"\u{feff}\"",
        "\"\\ufeff\"",
        "\"\u{2028}\"",
    ] {
        readable(value.as_bytes(), true);
    }
}

#[test]
fn every_byte_as_a_blank_and_in_a_number() {
    // A comma makes two values of one where values are listed.
    for byte in (0..=255u8).filter(|&byte| byte != b',') {
        let blank = b" \t\n\r".contains(&byte);
        let first = matches!(byte, b'1'..=b'9' | b'-');
        readable(&[byte, b'0'], blank || first);
        readable(&[b'0', byte], blank);
        readable(&[b'[', byte, b'1', b']'], blank || first);
        readable(&[byte], byte.is_ascii_digit());
        readable(&[b"{\"a\"", &[byte][..], b":0}"].concat(), blank);
        readable(&[b"nul", &[byte][..]].concat(), byte == b'l');
        readable(&[b"0", &[byte][..], b"1"].concat(), b".eE".contains(&byte));
        readable(&[b"1e", &[byte][..], b"1"].concat(), byte.is_ascii_digit() || b"+-".contains(&byte));
    }
}

#[test]
fn every_byte_in_a_string_and_after_a_backslash() {
    for byte in 0..=255u8 {
        let within = (0x20..0x80).contains(&byte) && byte != b'"' && byte != b'\\';
        readable(&[b'"', byte, b'"'], within);
        readable(&[b'"', b'a', byte, b'a', b'"'], within);
        readable(&[b'"', b'\\', byte, b'"'], b"\"\\/bfnrt".contains(&byte));
        let digit = byte.is_ascii_hexdigit();
        for at in 0..4 {
            let mut escape = *b"\"\\u0000\"";
            escape[3 + at] = byte;
            // At the first digit `d` makes no surrogate with zeros behind it.
            readable(&escape, digit);
        }
    }
}

#[test]
fn surrogates_stand_in_high_low_pairs() {
    for (escapes, good) in [
        (r"\ud7ff", true),
        (r"\ud800", false),
        (r"\udbff", false),
        (r"\udc00", false),
        (r"\udfff", false),
        (r"\ue000", true),
        (r"\ud800\udc00", true),
        (r"\uDBFF\uDFFF", true),
        (r"\ud800\udbff", false),
        (r"\ud800\ue000", false),
        (r"\ud800\ud800\udc00", false),
        (r"\ud800\udc00\udc00", false),
        (r"\udc00\ud800", false),
        (r"\ud800 \udc00", false),
        (r"\ud800\n\udc00", false),
        (r"\ud800\\udc00", false),
        (r"\ud800\", false),
        (r"\ud800\u", false),
        (r"\ud800\udc0", false),
    ] {
        readable(format!("\"{escapes}\"").as_bytes(), good);
        readable(format!("\"a{escapes}x\"").as_bytes(), good);
        // In a name too.
        readable(format!("{{\"{escapes}\":0}}").as_bytes(), good);
    }
}

#[test]
fn no_byte_order_mark_and_nothing_after_the_value() {
    let list = body(&NONE);
    with_body(&list).counts([0; 5]);
    for mark in [&b"\xef\xbb\xbf"[..], b"\xfe\xff", b"\0", b"\x0c", b"\xc2\xa0"] {
        with_body([mark, &list].concat()).refused(10);
        with_body([&list[..], mark].concat()).refused(10);
    }
    for more in ["x", ",", "}", "]", "{}", "0", "\"\"", "//", "/**/"] {
        with_body([&list[..], b" ", more.as_bytes()].concat()).refused(10);
    }
    with_body([b" \t\r\n", &list[..], b"\n\r\t "].concat()).counts([0; 5]);
    for end in 0..list.len() {
        with_body(&list[..end]).refused(10);
    }
}

#[test]
fn entries_are_decoded() {
    for (written, kept) in [
        (r"\u0069os:bundle-id:a", true),
        (r"ios\u003abundle-id:\u0061", true),
        (r"https:\/\/a.example.com\/", true),
        (r"\u0048\u0054TPS:\u002f\u002Fa\u002eexample.com\u003A444", true),
        (r"https:\\/\\/a.example.com", false),
        (r"https://a.example.com\u0000", false),
        (r"https://a.example.com\n", false),
        (r"\ud83d\udd11https://a.example.com", false),
        (r"https://a.ex\u00e4mple.com", false),
        (r"https://a.example.com\u005cu002f", false),
    ] {
        let case = with_body(body_of(&format!("[\"{written}\"]")));
        let cause = if written.starts_with("https://") { [0, 0, 0, 1, 0] } else { [0, 0, 1, 0, 0] };
        case.counts(if kept { [1, 0, 0, 0, 0] } else { cause });
    }
}
