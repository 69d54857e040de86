//! Cases written by hand from document 01 and its agreed readings.

use crate::{
    case::Case,
    check,
    hand::{body, body_of, case, APP},
    make::record::{answer, redirect},
};

const NONE: [&str; 0] = [];

/// A case's bytes, set one after the other.
fn set(case: &mut Case, field: &str, bytes: &[u8]) {
    let field = match field {
        "caller" => &mut case.caller,
        "appid" => &mut case.appid,
        "record" => &mut case.record,
        "text" => &mut case.text,
        "body" => &mut case.body,
        "table" => &mut case.table,
        other => panic!("no field {other}"),
    };
    *field = bytes.to_vec();
}

#[test]
fn every_answer_in_its_order() {
    // All is wrong at first; each step repairs just what the answer before it came from.
    let mut case = Case {
        caller: b"stranger".into(),
        appid: b"https://".into(),
        major: 1,
        minor: 0,
        record: [redirect(302, 0, 0, 9), answer(404, 0)].concat(),
        text: b"http://b".into(),
        body: vec![b'x'; 65_537],
        table: b"-".into(),
    };
    case.decides(101);
    let open = [redirect(302, 0, 0, 8), answer(404, 0)].concat();
    let bad = [redirect(302, 1, 0, 8), answer(404, 0)].concat();
    let good = |answer: &[u8]| [&redirect(302, 1, 0, 9), answer].concat();
    let misshapen = br#"{"trustedFacets":[{"version":{"major":2,"minor":0}}]}"#;
    let no_version = br#"{"trustedFacets":[{"version":{"major":2,"minor":0},"ids":[]}]}"#;
    for (field, bytes, code) in [
        ("caller", APP.as_bytes(), 102),
        ("appid", b"", 2),
        ("appid", APP.as_bytes(), 1),
        ("appid", b"ios:bundle-id:com.acme.other", 103),
        ("appid", b"https://www.example.com/appID", 104),
        ("record", &open, 105),
        ("record", &bad, 106),
        ("text", b"https://b", 106),
        ("record", &good(b""), 5),
        ("record", &good(&answer(404, 0)), 107),
        ("record", &good(&answer(200, 0)), 108),
        ("record", &good(&answer(200, 1)), 109),
        ("body", b"x", 110),
        ("body", misshapen, 111),
        ("body", no_version, 112),
        ("body", &body(&NONE), 113),
        ("table", b"com", 114),
        ("body", &body(&[APP]), 4),
        // A web caller on the AppID's host: the record, the body and the table mean nothing.
        ("caller", b"https://www.example.com", 3),
        ("record", b"x", 3),
        ("body", b"x", 3),
        ("table", b"-", 3),
    ] {
        set(&mut case, field, bytes);
        case.decides(code);
    }
}

#[test]
fn rules_1_and_2_look_at_caller_and_appid_alone() {
    let spoilt = Case { record: b"x".into(), body: b"x".into(), table: b"-".into(), ..case(&NONE) };
    for caller in [APP, "android:apk-key-hash:Az09+/Az09+/Az09+/Az09+/Aza"] {
        Case { caller: caller.into(), appid: caller.into(), ..spoilt.clone() }.decides(1);
        Case { caller: caller.into(), appid: Vec::new(), ..spoilt.clone() }.decides(2);
        // Equal in bytes, not without case.
        Case { caller: caller.into(), appid: caller.to_uppercase().into(), ..spoilt.clone() }.decides(103);
    }
    Case { caller: b"https://a.b".into(), appid: Vec::new(), ..spoilt.clone() }.decides(2);
    // A web caller equal to the AppID is allowed by rule 3, not 1.
    Case { caller: b"https://a.b/".into(), appid: b"https://a.b/".into(), ..spoilt.clone() }.decides(3);
    // A stranger is refused whatever the AppID.
    Case { caller: b"x".into(), appid: b"x".into(), ..spoilt.clone() }.decides(101);
    Case { caller: Vec::new(), appid: Vec::new(), ..spoilt }.decides(101);
}

#[test]
fn rule_3_compares_hosts_without_case_ports_aside() {
    for (caller, appid, code) in [
        ("https://www.example.com", "https://www.example.com", 3),
        ("https://www.example.com:8443/", "HTTPS://WWW.example.COM:444/x?y", 3),
        ("https://www.example.com:8443", "https://www.example.com", 3),
        ("https://www.example.com", "https://www.example.com:8443", 3),
        ("https://www.example.com:443", "https://www.example.com/", 3),
        ("hTTps://WWW.EXAMPLE.COM", "https://www.example.com?x", 3),
        ("https://192.0.2.1", "https://192.0.2.1:1/", 3),
        ("https://com", "https://com/", 3),
        ("https://example.com", "https://www.example.com", 114),
        ("https://www.example.com", "https://example.com", 114),
        ("https://www.example.co", "https://www.example.com", 114),
        ("https://ww.example.com", "https://www.example.com", 114),
        (APP, "https://com.acme.app", 114),
    ] {
        Case { caller: caller.into(), appid: appid.into(), ..case(&NONE) }.decides(code);
    }
}

#[test]
fn rule_4_matches_native_in_bytes_and_web_by_host_and_port() {
    let ids = ["https://Fido.example.com:444/", "ios:bundle-id:com.acme.App", "https://a.example.com"];
    for (caller, place) in [
        ("https://fido.example.com:444", Some(0)),
        ("HTTPS://FIDO.EXAMPLE.COM:444/", Some(0)),
        ("https://fido.example.com", None),
        ("https://fido.example.com:443", None),
        ("https://fido.example.com:4440", None),
        ("https://fido.example.com:44", None),
        ("https://fido.example.com:445", None),
        ("https://a.example.com/", Some(2)),
        ("https://a.example.com:443", Some(2)),
        ("https://A.example.com:443/", Some(2)),
        ("https://a.example.com:444", None),
        ("https://a.example.com:8443", None),
        ("ios:bundle-id:com.acme.App", Some(1)),
        ("ios:bundle-id:com.acme.app", None),
        ("ios:bundle-id:a.example.com", None),
        ("https://example.com", None),
        ("https://b.example.com", None),
        ("https://com.acme.App", None),
    ] {
        let case = Case { caller: caller.into(), ..case(&ids) };
        match place {
            Some(place) => case.listed_at(place),
            None => case.decides(114),
        }
    }
}

#[test]
fn accounts_on_443_are_listed_and_the_demo_on_8443_is_not() {
    // `https://h`, `https://h:443` and `https://h/` are one origin, as caller and as entry.
    let accounts = ["", "/", ":443", ":443/"].map(|end| format!("https://a.example.com{end}"));
    let demo = ["https://a.example.com:8443", "https://a.example.com:8443/"];
    for entry in &accounts {
        for caller in &accounts {
            Case { caller: caller.as_bytes().into(), ..case(&[entry]) }.listed_at(0);
            Case { caller: caller.as_bytes().into(), ..case(&[demo[0], entry]) }.listed_at(1);
            Case { caller: caller.as_bytes().into(), ..case(&demo) }.decides(114);
        }
        for caller in demo {
            Case { caller: caller.into(), ..case(&[entry]) }.decides(114);
            Case { caller: caller.into(), ..case(&[entry, demo[0]]) }.listed_at(1);
        }
    }
}

#[test]
fn the_place_is_the_first_match_among_kept_entries() {
    // Not the place in `ids`.
    case(&["http://a.example.com", "https://a.other.com", "https://b.example.com/x", APP]).listed_at(0);
    case(&["https://a.example.com", "x", "https://a.example.com", APP, "y", APP]).listed_at(2);
    case(&[APP, APP, APP]).listed_at(0);
    // The same host on another port first, then another host on the same port.
    let ids = ["https://a.example.com:444", "https://b.example.com", "https://a.example.com:443"];
    Case { caller: b"https://a.example.com".into(), ..case(&ids) }.listed_at(2);
}

#[test]
fn a_discarded_entry_allows_no_caller() {
    for (caller, entry) in [
        ("https://a.other.com", "https://a.other.com"),
        ("https://a.example.com", "https://a.example.com/path"),
        ("https://a.example.com", "http://a.example.com"),
        ("https://a.example.com", "https://user@a.example.com"),
        ("https://a.example.com", "https://a.example.com#"),
    ] {
        Case { caller: caller.into(), ..case(&[entry]) }.decides(114);
        Case { caller: caller.into(), ..case(&[entry, "https://a.example.com", APP]) }
            .decides(if caller == "https://a.example.com" { 4 } else { 114 });
    }
}

#[test]
fn plausible_error_an_entrys_host_that_only_ends_in_the_label() {
    // hosting.example.com is a public suffix: a.hosting.example.com is its own label.
    let ids = ["https://a.hosting.example.com", "https://a.example.com", "https://xexample.com"];
    Case { caller: b"https://a.hosting.example.com".into(), ..case(&ids) }.decides(114);
    Case { caller: b"https://xexample.com".into(), ..case(&ids) }.decides(114);
    Case { caller: b"https://a.example.com".into(), ..case(&ids) }.listed_at(0);
    case(&ids).counts([1, 0, 0, 0, 2]);
}

#[test]
fn plausible_error_the_label_of_the_redirects_host() {
    let text = b"https://www.other.com/facets";
    let record = [redirect(301, 1, 0, text.len() as u16), answer(200, 1)].concat();
    let ids = ["https://a.other.com", "https://a.example.com"];
    let case = Case { record, text: text.into(), ..case(&ids) };
    Case { caller: b"https://a.other.com".into(), ..case.clone() }.decides(114);
    Case { caller: b"https://a.example.com".into(), ..case.clone() }.listed_at(0);
    // Nor does rule 3 look at it.
    Case { caller: b"https://www.other.com".into(), ..case }.decides(114);
}

#[test]
fn a_bad_table_refuses_native_callers_too() {
    Case { table: b"!com".into(), ..case(&[APP]) }.refused(13);
    Case { table: Vec::new(), ..case(&[APP]) }.listed_at(0);
    // The body is judged before.
    Case { table: b"!com".into(), body: body_of("[1]"), ..case(&NONE) }.refused(11);
}

#[test]
fn an_appid_without_a_label_keeps_native_entries_alone() {
    for appid in ["https://com/x", "https://192.0.2.1/", "https://b.ck", "https://hosting.example.com"] {
        let entry = appid.trim_end_matches("/x");
        let case = Case { appid: appid.into(), ..case(&[entry, "https://example.com", APP]) };
        case.counts([1, 0, 0, 0, 2]);
        case.listed_at(0);
    }
}

#[test]
fn callers_that_are_no_facets_are_strangers() {
    for caller in [
        "",
        "https://",
        "https:/a.b",
        "http://a.b",
        "https://a.b//",
        "https://a.b/x",
        "https://a.b?",
        "https://a.b#",
        "https://u@a.b",
        "https://a.b:",
        "https://a.b:0",
        "https://a.b:080",
        "https://a.b:65536",
        "https://a.b:99999",
        "https://a.b:100000",
        "https://a.b:4294967739",
        "https://a.b:+1",
        "https://a.b.",
        "https://.a.b",
        "https://a_b",
        "https://-a",
        " https://a.b",
        "https://a.b ",
        "https://a.b\n",
        "https://a.b\0",
        "https://[::1]",
        "https:///",
        "https://:1",
        "ios:bundle-id:",
        "ios:bundle-id:a_b",
        "ios:bundle-id:a/",
        "IOS:bundle-id:a",
        "ios:Bundle-id:a",
        "ios:bundle-id",
        "android:apk-key-hash:",
        "android:apk-key-hash:Az09+/Az09+/Az09+/Az09+/Az",
        "android:apk-key-hash:Az09+/Az09+/Az09+/Az09+/Azaa",
        "android:apk-key-hash:Az09+/Az09+/Az09+/Az09+/Az=",
        "android:apk-key-hash:Az09-/Az09+/Az09+/Az09+/Aza",
        "Android:apk-key-hash:Az09+/Az09+/Az09+/Az09+/Aza",
        "android:apk-key-hash-sha256:Az09+/Az09+/Az09+/Az09+/AzaAz09+/Az09+/Az09",
    ] {
        Case { caller: caller.into(), ..case(&[caller]) }.decides(101);
        // As an entry it is discarded for cause 2 or 3.
        let begins = ["https://", "ios:bundle-id:", "android:apk-key-hash:"];
        let cause_3 = begins.iter().any(|begin| caller.starts_with(begin));
        case(&[caller]).counts(if cause_3 { [0, 0, 0, 1, 0] } else { [0, 0, 1, 0, 0] });
    }
    Case { caller: b"\xff".into(), ..case(&NONE) }.decides(101);
    Case { caller: b"https://\xff.b".into(), ..case(&NONE) }.decides(101);
}

#[test]
fn appids_that_are_no_urls_are_bad_or_foreign() {
    for (appid, number) in [
        ("https://", 2),
        ("hTTps://", 2),
        ("https:///x", 2),
        ("https://?", 2),
        ("https://a.b/#", 2),
        ("https://a.b#", 2),
        ("https://a.b/ ", 2),
        ("https://a.b/\u{7f}", 2),
        ("https://a.b/\u{e9}", 2),
        ("https://a.b\\", 2),
        ("https://a.b:/", 2),
        ("https://a.b:0/", 2),
        ("https://a.b:65536/", 2),
        ("https://a.b:080?", 2),
        ("https://u@a.b/", 2),
        ("https://a..b/", 2),
        ("https://a.b\n", 2),
        ("https:/", 3),
        ("https:", 3),
        ("http://a.b/", 3),
        (" https://a.b/", 3),
        ("ios:bundle-id:a", 3),
        ("\0", 3),
    ] {
        Case { appid: appid.into(), ..case(&NONE) }.refused(number);
    }
    // The empty AppID is rule 2's in the decision, and 3 elsewhere.
    let empty = Case { appid: Vec::new(), ..case(&NONE) };
    empty.decides(2);
    assert_eq!(check::cleaning(&empty, b"#"), Err(3));
    assert_eq!(check::tallying(&empty), Err(3));
    for appid in ["https://a.b:65535/!~", "HTTPS://a.b:1?#"] {
        let good = !appid.ends_with('#');
        Case { appid: appid.into(), ..case(&[APP]) }.decides(if good { 4 } else { 102 });
    }
}
