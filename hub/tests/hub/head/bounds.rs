//! Both sides of every bound on heads, outputs and starts, by hand.

use super::{answer, found, head_of, ok, pattern, redirect, refused, says, URL};
use crate::{
    check,
    model::{head::Head, record::Redirect},
};
use facets_hub::{read_head, Refusal};

/// The lines that count.
const FIELDS: &str = "Location: https://b.example/f\r\n\
    FIDO-AppID-Redirect-Authorized: true\r\n\
    Content-Type: application/fido.trusted-apps+json\r\n";

/// Ways to make a head longer by so many bytes: its reason, and more field lines.
const WAYS: [fn(usize) -> (String, String); 8] = [
    |more| ("r".repeat(more), String::new()),
    |more| (" ".repeat(more), String::new()),
    |more| (String::new(), format!("X: {}\r\n", "v".repeat(more))),
    |more| (String::new(), format!("X{}: v\r\n", "n".repeat(more))),
    |more| (String::new(), format!("X:{}v\r\n", " ".repeat(more))),
    |more| (String::new(), format!("X:v{}\r\n", "\t".repeat(more))),
    |more| (String::new(), lines_of("a:\r\n", more)),
    |more| (String::new(), lines_of("Server: x\r\n", more)),
];

/// So many bytes of lines: as many of this one as there is room for, the rest in another.
fn lines_of(line: &str, bytes: usize) -> String {
    line.repeat(bytes / line.len()) + "X:" + &"v".repeat(bytes % line.len()) + "\r\n"
}

/// The head of just this length.
fn of_length(length: usize, with: impl Fn(usize) -> String) -> String {
    let head = with(length - with(0).len());
    assert_eq!(head.len(), length);
    head
}

#[test]
fn a_head_has_at_most_8192_bytes() {
    for way in WAYS {
        for length in [8190, 8191, 8192, 8193, 8194, 10_000, 16_384, 16_385, 65_536, 73_728, 1_048_576] {
            // The lines that count stand behind the others, or before them.
            for behind in [true, false] {
                let of_status = |status: &str| {
                    of_length(length, |more| {
                        let (reason, lines) = way(more);
                        let (one, other) = if behind { (&lines[..], FIELDS) } else { (FIELDS, &lines[..]) };
                        format!("HTTP/1.1 {status} {reason}\r\n{one}{other}\r\n")
                    })
                };
                if length <= 8192 {
                    redirect(of_status("302"), 302, true, URL);
                    answer(of_status("200"), 200, true);
                } else {
                    refused(of_status("302"));
                    refused(of_status("200"));
                }
            }
        }
    }
}

#[test]
fn lines_of_a_name_that_counts_fill_a_head() {
    let filled = |length: usize, first: &str, line: &str, last: &str| {
        of_length(length, |more| format!("{first}\r\n{}{last}\r\n", lines_of(line, more)))
    };
    let redirected = |length: usize, header: &str| {
        let first = format!("HTTP/1.1 302 \r\nFIDO-AppID-Redirect-Authorized: {header}");
        filled(length, &first, "FIDO-AppID-Redirect-Authorized:\r\n", "Location: https://b.example/f\r\n")
    };
    redirect(redirected(8192, "true"), 302, true, URL);
    redirect(redirected(8192, "false"), 302, false, URL);
    refused(redirected(8193, "true"));
    let answered = |length: usize, media_type: &str| {
        filled(length, &format!("HTTP/1.1 200 \r\nContent-Type: {media_type}"), "Content-Type:\r\n", "")
    };
    answer(answered(8192, "application/fido.trusted-apps+json"), 200, true);
    answer(answered(8192, "text/html"), 200, false);
    refused(answered(8193, "application/fido.trusted-apps+json"));
    // Locations: in an answer any number, in a redirect one.
    let locations =
        |length: usize, status: &str| filled(length, &format!("HTTP/1.1 {status} "), "Location:\r\n", "");
    answer(locations(8192, "200"), 200, false);
    refused(locations(8193, "200"));
    refused(locations(8192, "302"));
}

#[test]
fn a_location_is_as_long_as_the_head_allows() {
    for length in [1, 255, 256, 257, 2047, 2048, 2049, 4096, 8162, 8163, 8164, 8165, 8166] {
        let location = visible(length);
        let head = head_of("HTTP/1.1 302 ", &[[b"Location:", &location[..]].concat()]);
        assert_eq!(head.len(), length + 28);
        if length <= 8164 {
            redirect(&head, 302, false, &location);
        } else {
            refused(&head);
        }
    }
}

/// Any bytes a value holds, no blanks at its ends.
fn visible(length: usize) -> Vec<u8> {
    (0..length).map(|at| if at % 7 == 3 { 0x80 | at as u8 } else { 0x21 + (at % 94) as u8 }).collect()
}

#[test]
fn the_first_output_has_room_for_8_bytes_or_4() {
    let (redirected, answered) = (found(&["Location: ab"]), ok::<&str>(&[]));
    for room in 0..=12 {
        for (head, needed) in [(&redirected, 8), (&answered, 4)] {
            let (before, mut item, mut text) = (pattern(room), pattern(room), pattern(2));
            let read = read_head(head, 0, &mut item, &mut text);
            if room < needed {
                assert_eq!(read, Err(Refusal::Full));
                assert_eq!((item, text), (before, pattern(2)));
            } else {
                assert_eq!(read.map(|head| head.item_len()), Ok(needed));
                assert_eq!(item[needed..], before[needed..]);
                assert_ne!(item[..needed], before[..needed]);
            }
        }
    }
}

#[test]
fn the_second_output_has_room_for_the_location() {
    for length in [0, 1, 2, 19, 255, 256, 300, 8164] {
        let location = visible(length);
        let head = head_of("HTTP/1.1 302 ", &[[b"Location:", &location[..]].concat()]);
        for room in [0, length.saturating_sub(2), length.saturating_sub(1), length, length + 1, length + 300]
        {
            let (before, mut item, mut text) = (pattern(room), pattern(8), pattern(room));
            let read = read_head(&head, 513, &mut item, &mut text);
            if room < length {
                assert_eq!(read, Err(Refusal::Full));
                assert_eq!((item, text), (pattern(8), before));
            } else {
                assert_eq!(read.map(|head| head.location_len()), Ok(length));
                assert_eq!(item, [1, 1, 46, 0, 2, 1, (length / 256) as u8, length as u8]);
                assert_eq!(text[..length], location[..]);
                assert_eq!(text[length..], before[length..]);
            }
        }
    }
    // An answer writes nothing there, whatever its Location.
    for room in [0, 1, 100] {
        let mut text = pattern(room);
        assert!(read_head(&ok(&["Location: ab"]), 0, &mut [0; 4], &mut text).is_ok());
        assert_eq!(text, pattern(room));
    }
}

#[test]
fn a_redirects_start_fits_2_bytes_and_an_answers_may_be_any() {
    let starts =
        [0, 1, 255, 256, 257, 65_279, 65_280, 65_534, 65_535, 65_536, 65_537, 65_791, 131_071, 131_072];
    let more = [1 << 24, (1 << 24) + 1, 0x7FFF_FFFF, 0x8000_0000, 0xFFFF_0000, u32::MAX - 1, u32::MAX];
    for start in starts.into_iter().chain(more) {
        let head = found(&["Location: ab"]);
        let says = check::head(&head, start, &pattern(9), &pattern(4)).map(|head| head.text().to_vec());
        let mut item = [0; 8];
        let read = read_head(&head, start, &mut item, &mut [0; 2]);
        if start <= 65_535 {
            assert_eq!((says, read.is_ok()), (Ok(b"ab".to_vec()), true));
            // Start and length together may pass 65,535.
            assert_eq!(item, [1, 1, 46, 0, (start / 256) as u8, start as u8, 0, 2]);
        } else {
            assert_eq!((says, read, item), (Err(15), Err(Refusal::Full), [0; 8]));
        }
        let mut item = [0; 4];
        assert!(read_head(&ok(&["Location: ab"]), start, &mut item, &mut []).is_ok());
        assert_eq!(item, [2, 0, 200, 0]);
    }
}

#[test]
fn an_empty_location_needs_no_room() {
    let head = Head::Redirect(Redirect { status: 304, header_seen: true, location: Vec::new() });
    let fields = ["Location:", "FIDO-AppID-Redirect-Authorized: true"];
    says(&head_of("HTTP/1.1 304 Not Modified", &fields), &head);
    let mut item = [0; 8];
    let bytes = head_of("HTTP/1.1 304 Not Modified", &fields);
    assert!(read_head(&bytes, 65_535, &mut item, &mut []).is_ok());
    assert_eq!(item, [1, 1, 48, 1, 255, 255, 0, 0]);
}
