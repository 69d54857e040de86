//! The list's shape, its selected object and its entries, by hand.

use crate::{
    case::Case,
    hand::{body_of, case, APP},
};

const NONE: [&str; 0] = [];

/// The good case with this body.
fn with_body(body: impl AsRef<[u8]>) -> Case {
    Case { body: body.as_ref().to_vec(), ..case(&NONE) }
}

/// A body whose one object has this version and these other members.
fn with_version(version: &str) -> Case {
    with_body(format!(r#"{{"trustedFacets":[{{"version":{version},"ids":["{APP}"]}}]}}"#))
}

#[test]
fn bodies_of_another_shape_are_misshapen() {
    for body in [
        "0",
        "\"a\"",
        "null",
        "true",
        "[]",
        "{}",
        "[{}]",
        "-1.5e+3",
        " { } ",
        // `trustedFacets` once, an array of objects.
        r#"{"trustedFacets":{}}"#,
        r#"{"trustedFacets":null}"#,
        r#"{"trustedFacets":"[]"}"#,
        r#"{"trustedFacets":[],"trustedFacets":[]}"#,
        r#"{"trustedFacets":[],"trusted\u0046acets":1}"#,
        r#"{"TrustedFacets":[]}"#,
        r#"{"trustedFacets ":[]}"#,
        r#"{"trustedFacets":[1]}"#,
        r#"{"trustedFacets":[[]]}"#,
        r#"{"trustedFacets":[null]}"#,
        r#"{"trustedFacets":[{}]}"#,
        r#"[{"trustedFacets":[]}]"#,
        // `version` and `ids` once.
        r#"{"trustedFacets":[{"version":{"major":1,"minor":0}}]}"#,
        r#"{"trustedFacets":[{"ids":[]}]}"#,
        r#"{"trustedFacets":[{"version":{"major":1,"minor":0},"ids":[],"ids":[]}]}"#,
        r#"{"trustedFacets":[{"version":{"major":1,"minor":0},"ids":[],"\u0069ds":7}]}"#,
        r#"{"trustedFacets":[{"version":{"major":1,"minor":0},"ids":[],"version":{"major":1,"minor":0}}]}"#,
        r#"{"trustedFacets":[{"version":1,"ids":[]}]}"#,
        r#"{"trustedFacets":[{"version":[1,0],"ids":[]}]}"#,
        r#"{"trustedFacets":[{"version":"1.0","ids":[]}]}"#,
        // `ids` an array of strings.
        r#"{"trustedFacets":[{"version":{"major":1,"minor":0},"ids":{}}]}"#,
        r#"{"trustedFacets":[{"version":{"major":1,"minor":0},"ids":"a"}]}"#,
        r#"{"trustedFacets":[{"version":{"major":1,"minor":0},"ids":[1]}]}"#,
        r#"{"trustedFacets":[{"version":{"major":1,"minor":0},"ids":["a",null]}]}"#,
        r#"{"trustedFacets":[{"version":{"major":1,"minor":0},"ids":[["a"]]}]}"#,
    ] {
        with_body(body).refused(11);
        // A bad byte at the very end: the whole body is to be readable first.
        with_body(format!("{body},")).refused(10);
    }
}

#[test]
fn every_object_is_held_to_the_shape() {
    let good = r#"{"version":{"major":1,"minor":0},"ids":[]}"#;
    for other in [
        "1",
        "{}",
        r#"{"ids":[]}"#,
        r#"{"version":{"major":1,"minor":0},"ids":[1]}"#,
        r#"{"version":{"major":2},"ids":[]}"#,
        r#"{"version":{"major":2,"minor":65536},"ids":[]}"#,
    ] {
        with_body(format!(r#"{{"trustedFacets":[{other},{good}]}}"#)).refused(11);
        with_body(format!(r#"{{"trustedFacets":[{good},{other}]}}"#)).refused(11);
        with_body(format!(r#"{{"trustedFacets":[{good},{good},{other}]}}"#)).refused(11);
    }
}

#[test]
fn major_and_minor_are_digits_only_and_at_most_65535() {
    for number in
        ["1.0", "1e0", "1E0", "-0", "-1", "0.0", "0e0", "65536", "65537", "99999", "100000", "131073"]
    {
        with_version(&format!(r#"{{"major":{number},"minor":0}}"#)).refused(11);
        with_version(&format!(r#"{{"minor":{number},"major":1}}"#)).refused(11);
    }
    for value in ["4294967297", "18446744073709551617", "\"1\"", "null", "true", "[1]", "{}", "[]"] {
        with_version(&format!(r#"{{"major":{value},"minor":0}}"#)).refused(11);
    }
    for version in [
        "{}",
        r#"{"major":1}"#,
        r#"{"minor":0}"#,
        r#"{"major":1,"minor":0,"major":1}"#,
        r#"{"major":1,"minor":0,"mino\u0072":0}"#,
        r#"{"Major":1,"minor":0}"#,
    ] {
        with_version(version).refused(11);
    }
    for version in [r#"{"major":01,"minor":0}"#, r#"{"major":1,"minor":00}"#, r#"{"major":+1,"minor":0}"#] {
        with_version(version).refused(10);
    }
    for (major, minor) in
        [(0, 0), (0, 65535), (65535, 0), (65535, 65535), (65534, 9), (10, 100), (1000, 10000)]
    {
        let version = format!(r#"{{"major":{major},"minor":{minor}}}"#);
        Case { major, minor, ..with_version(&version) }.listed_at(0);
        Case { major, minor, ..with_version(&version) }.keeps(&[APP]);
        Case { major: major ^ 1, minor, ..with_version(&version) }.refused(12);
        Case { major, minor: minor ^ 256, ..with_version(&version) }.refused(12);
    }
}

#[test]
fn the_first_object_of_the_wanted_version_is_selected() {
    let object = |major: u16, minor: u16, ids: &str| {
        format!(r#"{{"version":{{"major":{major},"minor":{minor}}},"ids":[{ids}]}}"#)
    };
    let list = |objects: &[String]| with_body(format!(r#"{{"trustedFacets":[{}]}}"#, objects.join(",")));
    let (app, other) = (format!("\"{APP}\""), "\"x\"".to_owned());
    list(&[]).refused(12);
    list(&[object(0, 1, &app), object(1, 1, &app), object(2, 0, &app)]).refused(12);
    list(&[object(0, 1, &other), object(1, 0, &app), object(1, 0, &other)]).listed_at(0);
    list(&[object(1, 0, &other), object(1, 0, &app)]).decides(114);
    list(&[object(1, 0, ""), object(1, 0, &app)]).counts([0; 5]);
    list(&[object(1, 1, &app), object(1, 0, &format!("{other},{app}"))]).counts([1, 0, 1, 0, 0]);
}

#[test]
fn names_compare_after_escapes_and_other_members_are_skipped() {
    let escaped =
        r#"{"\u0074rustedFacets":[{"\u0076ersion":{"m\u0061jor":1,"mino\u0072":0},"id\u0073":["x"]}]}"#;
    with_body(escaped).counts([0, 0, 1, 0, 0]);
    let others = r#"{"":1,"x":[{"ids":7}],"x":{},"trustedFacets":[{"y":"\u0000","version":{"z":[[]],"major":1,"":{},
        "minor":0,"z":-0.0e-0},"ids\u0000":1,"ids":["x"],"id":[1,2.5,[null]],"major":9}],"version":3,"ids":{}}"#;
    with_body(others).counts([0, 0, 1, 0, 0]);
}

#[test]
fn members_stand_in_any_order() {
    for body in [
        r#"{"trustedFacets":[{"ids":["x"],"version":{"minor":0,"major":1}}]}"#,
        r#"{"a":0,"trustedFacets":[{"ids":["x"],"a":0,"version":{"minor":0,"a":0,"major":1},"a":0}],"a":0}"#,
        r#"{"trustedFacets":[{"ids":["y","y"],"version":{"minor":1,"major":0}},
            {"ids":["x"],"version":{"minor":0,"major":1}},{"ids":[],"version":{"minor":0,"major":1}}]}"#,
    ] {
        with_body(body).counts([0, 0, 1, 0, 0]);
    }
}

#[test]
fn other_names_and_numbers_have_any_length() {
    for length in [1, 255, 256, 511, 512, 513, 514, 1024, 3000] {
        let fill = "s".repeat(length);
        for name in
            [fill.clone(), format!("ids{fill}"), format!("ids\\u0000{fill}"), "\\u0073".repeat(length)]
        {
            let object = format!(r#""version":{{"major":1,"{name}":1,"minor":0}},"{name}":2,"ids":["x"]"#);
            with_body(format!(r#"{{"{name}":[],"trustedFacets":[{{{object}}}]}}"#)).counts([0, 0, 1, 0, 0]);
            // It is a member like another, twice or not, but no stand-in for one that is asked for.
            let object = format!(r#""version":{{"major":1,"minor":0}},"{name}":["x"]"#);
            with_body(format!(r#"{{"trustedFacets":[{{{object}}}]}}"#)).refused(11);
        }
        let digits = "1".repeat(length);
        with_body(body_of(&format!("[],\"x\":{digits},\"y\":-{digits}.{digits}e-{digits}"))).counts([0; 5]);
        if length > 1 {
            with_version(&format!(r#"{{"major":{digits},"minor":0}}"#)).refused(11);
        }
    }
}

#[test]
fn entries_are_discarded_for_the_first_cause_that_holds() {
    let long = |start: &str| start.to_owned() + &"a".repeat(513 - start.len());
    for (entry, cause) in [
        (long(""), 1),
        (long("https://a.example.com/"), 1),
        (long("ios:bundle-id:"), 1),
        (long("http://"), 1),
        (String::new(), 2),
        ("http://a.example.com".into(), 2),
        ("https:/".into(), 2),
        ("Ios:bundle-id:a".into(), 2),
        ("https://".into(), 3),
        ("HTTPS://".into(), 3),
        ("https://a.other.com/x".into(), 3),
        ("https://a.example.com:0".into(), 3),
        ("ios:bundle-id:".into(), 3),
        ("https://a.other.com".into(), 4),
        ("https://com".into(), 4),
        ("https://192.0.2.1".into(), 4),
        ("https://hosting.example.com".into(), 4),
        ("https://EXAMPLE.com".into(), 0),
        ("hTTpS://a.b.Example.COM:1/".into(), 0),
        (APP.into(), 0),
    ] {
        let mut counts = [0; 5];
        counts[cause] = 1;
        case(&[&entry]).counts(counts);
        // Between two that are kept.
        counts[0] += 2;
        case(&[APP, &entry, "https://example.com"]).counts(counts);
    }
}
