//! Cleaned lists and the outputs they are written to, by hand.

use crate::{
    case::Case,
    hand::{body, body_of, case, APP},
};
use facets_hub::{clean, Refusal};

const NONE: [&str; 0] = [];

#[test]
fn cleaning_prints_document_01s_list() {
    let body = body(&[
        "https://Fido.example.com/", "http://www.example.com", "ios:bundle-id:com.acme.app",
        "https://www.example.com:444",
    ]);
    let case = Case { body, table: b"com".into(), ..case(&NONE) };
    case.keeps(&["https://fido.example.com", "ios:bundle-id:com.acme.app", "https://www.example.com:444"]);
    case.counts([3, 0, 1, 0, 0]);
    case.listed_at(1);
}

#[test]
fn cleaning_writes_normal_forms_in_order_repeats_included() {
    case(&NONE).keeps(&[]);
    case(&["x", "https://other.com"]).keeps(&[]);
    case(&[
        "HTTPS://A.Example.COM:443/",
        "https://a.example.com",
        "https://a.example.com:80/",
        "ios:bundle-id:Com.ACME",
        "android:apk-key-hash:Az09+/Az09+/Az09+/Az09+/Aza",
        "ios:bundle-id:Com.ACME",
    ])
    .keeps(&[
        "https://a.example.com",
        "https://a.example.com",
        "https://a.example.com:80",
        "ios:bundle-id:Com.ACME",
        "android:apk-key-hash:Az09+/Az09+/Az09+/Az09+/Aza",
        "ios:bundle-id:Com.ACME",
    ]);
    // Escapes are gone, and a slash is written as it is.
    let escaped =
        r#"["\u0068ttps:\/\/\u0041.example.com","android:apk-key-hash:Az09+\/Az09+\/Az09+\/Az09+\/Aza"]"#;
    let kept = ["https://a.example.com", "android:apk-key-hash:Az09+/Az09+/Az09+/Az09+/Aza"];
    Case { body: body_of(escaped), ..case(&NONE) }.keeps(&kept);
}

#[test]
fn an_output_is_long_enough_or_stays_as_it_is() {
    let list =
        br#"{"trustedFacets":[{"version":{"major":1,"minor":0},"ids":["ios:bundle-id:com.acme.app"]}]}"#;
    let Case { appid, body, table, .. } = &case(&["x", APP]);
    for length in 0..list.len() + 40 {
        let before: Vec<u8> = (0..length).map(|at| at as u8 ^ 0x5A).collect();
        let mut out = before.clone();
        let cleaned = clean(appid, 1, 0, body, table, &mut out);
        if length < list.len() {
            assert_eq!(cleaned, Err(Refusal::Full));
            assert_eq!(out, before);
        } else {
            assert_eq!(cleaned, Ok(list.len()));
            assert_eq!(out[..list.len()], list[..]);
            assert_eq!(out[list.len()..], before[list.len()..]);
        }
    }
}

#[test]
fn a_refusal_changes_no_byte_and_comes_in_its_order() {
    let long = vec![b' '; 65_537];
    let mut case = Case { appid: b"https://".into(), body: long, table: b"-".into(), ..case(&[APP]) };
    let cleaned = |case: &Case, length: usize| {
        let mut out = vec![0x5A; length];
        let refusal = clean(&case.appid, case.major, case.minor, &case.body, &case.table, &mut out);
        assert_eq!(out, vec![0x5A; length]);
        refusal
    };
    // All is wrong at first; each step repairs just what the refusal before it came from.
    assert_eq!(cleaned(&case, 10), Err(Refusal::BadAppId));
    case.appid = b"https:/".into();
    assert_eq!(cleaned(&case, 10), Err(Refusal::ForeignAppId));
    case.appid = Vec::new();
    assert_eq!(cleaned(&case, 10), Err(Refusal::ForeignAppId));
    case.appid = b"https://a.b".into();
    assert_eq!(cleaned(&case, 10), Err(Refusal::LongList));
    case.body.pop();
    assert_eq!(cleaned(&case, 10), Err(Refusal::Unreadable));
    case.body = b"[]".into();
    assert_eq!(cleaned(&case, 10), Err(Refusal::Misshapen));
    case.body = br#"{"trustedFacets":[]}"#.into();
    assert_eq!(cleaned(&case, 10), Err(Refusal::NoVersion));
    case.body = body(&[APP]);
    assert_eq!(cleaned(&case, 4096), Err(Refusal::BadTable));
    case.table = Vec::new();
    assert_eq!(cleaned(&case, 10), Err(Refusal::Full));
    case.keeps(&[APP]);
}
