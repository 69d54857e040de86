//! The sample lists of the FIDO AppID and Facet Specification of 14 May 2015, sections 3.1.4 and 3.1.5.

use crate::{case::Case, hand::case};

/// Example 2, as printed.
const EXAMPLE_2: &str = r#"{
    "trustedFacets" : [{
        "version": { "major": 1, "minor" : 0 },
        "ids": [
            "https://register.example.com", // VALID, shares "example.com" label
            "https://fido.example.com", // VALID, shares "example.com" label
            "http://www.example.com", // DISCARD, scheme is not https:
            "http://www.example-test.com", // DISCARD, "example-test.com" does not match
            "https://www.example.com:444" // VALID, port is not significant
        ]
    }]
}"#;

/// Example 3, as printed.
const EXAMPLE_3: &str = r#"{
    "trustedFacets" : [{
        "version": { "major": 1, "minor" : 0 },
        "ids": [
            "https://register.example.com", // DISCARD, does not share "companyA.hosting.example.com" label
            "https://fido.companyA.hosting.example.com", // VALID, shares "companyA.hosting.example.com" label
            "https://xyz.companyA.hosting.example.com", // VALID, shares "companyA.hosting.example.com" label
            "https://companyB.hosting.example.com" // DISCARD, "companyB.hosting.example.com" does not match
        ]
    }]
}"#;

/// A list as printed, and the same without its comments.
fn samples(printed: &str, appid: &str) -> (Case, Case) {
    let plain: Vec<&str> = printed.lines().map(|line| line.split(" //").next().unwrap_or(line)).collect();
    let with = |body: &str| Case { appid: appid.into(), body: body.into(), ..case::<&str>(&[]) };
    (with(printed), with(&plain.join("\n")))
}

#[test]
fn plausible_error_accepting_the_comments() {
    for (printed, appid) in [
        (EXAMPLE_2, "https://www.example.com/appID"),
        (EXAMPLE_3, "https://companyA.hosting.example.com/appID"),
    ] {
        let (commented, plain) = samples(printed, appid);
        commented.refused(10);
        plain.decides(114);
    }
}

#[test]
fn example_2() {
    let (_, plain) = samples(EXAMPLE_2, "https://www.example.com/appID");
    plain.counts([3, 0, 2, 0, 0]);
    plain.keeps(&["https://register.example.com", "https://fido.example.com", "https://www.example.com:444"]);
    for (caller, code) in [
        ("https://www.example.com", 3),
        ("https://register.example.com", 4),
        ("https://fido.example.com", 4),
        ("https://user1.example.com", 114),
        ("https://www.example-test.com", 114),
    ] {
        Case { caller: caller.into(), ..plain.clone() }.decides(code);
    }
}

#[test]
fn example_3() {
    let (_, plain) = samples(EXAMPLE_3, "https://companyA.hosting.example.com/appID");
    plain.counts([2, 0, 0, 0, 2]);
    plain.keeps(&["https://fido.companya.hosting.example.com", "https://xyz.companya.hosting.example.com"]);
    for (caller, code) in [
        ("https://fido.companyA.hosting.example.com", 4),
        ("https://xyz.companya.HOSTING.example.com", 4),
        ("https://register.example.com", 114),
        ("https://companyB.hosting.example.com", 114),
    ] {
        Case { caller: caller.into(), ..plain.clone() }.decides(code);
    }
}
