//! The bodies of the benchmarks' lists.

pub const VERSION: (u16, u16) = (1, 0);
pub const BODY_MAX: usize = 65_536;

pub struct Body {
    pub name: &'static str,
    pub what: &'static str,
    pub entries: usize,
    pub text: String,
}

/// A list of version 1.0 with these strings, as they are written.
pub fn body(name: &'static str, what: &'static str, ids: &[String]) -> Body {
    let text = format!(
        r#"{{"trustedFacets":[{{"version":{{"major":1,"minor":0}},"ids":["{}"]}}]}}"#,
        ids.join("\",\"")
    );
    Body { name, what, entries: ids.len(), text }
}

/// The same with as many entries as fit.
pub fn full(name: &'static str, what: &'static str, ids: impl Fn(usize) -> Vec<String>) -> Body {
    let (mut fits, mut too_many) = (5, BODY_MAX);
    while too_many - fits > 1 {
        let count = (fits + too_many) / 2;
        if body(name, what, &ids(count)).text.len() <= BODY_MAX {
            fits = count;
        } else {
            too_many = count;
        }
    }
    body(name, what, &ids(fits))
}
