//! The tables and lists of the benchmark, each for the AppID `https://www.OWNER/appID` of the table's owner.

mod body;

use crate::published;
use body::{body, full, BODY_MAX};
pub use body::{Body, VERSION};
use publicsuffix::List;

/// The owner with most tables.
const OWNER: &str = "example.com";

const TABLE_MAX: usize = 1_048_576;

/// A suffix table: its text for the library, and as the other program has read it before.
pub struct Table {
    pub name: &'static str,
    pub what: &'static str,
    /// The AppID's private label.
    pub owner: &'static str,
    pub appid: String,
    pub text: String,
    pub list: List,
    /// The text that the other program read.
    pub other: String,
}

impl Table {
    fn new(name: &'static str, what: &'static str, text: String, other: &str) -> Table {
        assert!(text.len() <= TABLE_MAX);
        let list = other.parse().expect("a list");
        Table { name, what, owner: OWNER, appid: appid(OWNER), text, list, other: other.to_owned() }
    }

    /// The same for another owner.
    fn of(self, owner: &'static str) -> Table {
        Table { owner, appid: appid(owner), ..self }
    }

    /// `com`, then lines to the last byte a table may have. `publicsuffix` wants a heading before the rules.
    fn full(name: &'static str, what: &'static str, line: impl Fn(usize) -> String) -> Table {
        let mut text = String::from("com\n");
        for line in (0..).map(line) {
            if text.len() + line.len() > TABLE_MAX {
                break;
            }
            text += &line;
        }
        text += &"\n".repeat(TABLE_MAX - text.len());
        let other = format!("// BEGIN ICANN DOMAINS\n{text}");
        Table::new(name, what, text, &other)
    }
}

fn appid(owner: &str) -> String {
    format!("https://www.{owner}/appID")
}

pub fn tables() -> Vec<Table> {
    let (list, whole) = (published::list(), published::table());
    let rules = published::rules(&whole).join("\n");
    vec![
        Table::new("published", "the published table, names in `xn--` form", whole.clone(), &list),
        Table::new("amazonaws", "the published table, the AppID on www.amazonaws.com", whole, &list)
            .of("amazonaws.com"),
        Table::new("rules", "the same without comments and blank lines", rules, &list),
        Table::full("short", "a mebibyte of the shortest rules, `m`", |_| "m\n".to_owned()),
        Table::full("near", "a mebibyte of rules beside the AppID's label, `m.com`", |_| {
            "m.com\n".to_owned()
        }),
        Table::full("general", "a mebibyte of the rule `*`, which goes the general way", |_| {
            "*\n".to_owned()
        }),
        Table::full("deeper", "a mebibyte of rules that go deeper than the AppID's label", |n| {
            format!("x{n:05}.example.com\n")
        }),
    ]
}

/// A native identity first and last, web origins between them, most of them kept.
fn mixed(owner: &str, count: usize) -> Vec<String> {
    let mut ids = vec!["ios:bundle-id:com.acme.first".to_owned(), format!("https://first.{owner}")];
    ids.extend((3..count - 1).map(|n| match n % 10 {
        7 => format!("http://w{n:04}.{owner}"),
        8 => format!("https://w{n:04}.example.org"),
        _ => format!("https://w{n:04}.{owner}"),
    }));
    ids.extend([format!("https://last.{owner}"), "ios:bundle-id:com.acme.last".to_owned()]);
    assert_eq!(ids.len(), count);
    ids
}

fn escaped(text: &str) -> String {
    text.bytes().map(|byte| format!("\\u{byte:04x}")).collect()
}

/// Lists as they are in use, of three lengths.
pub fn common(owner: &str) -> Vec<Body> {
    vec![
        body("small", "5 entries", &mixed(owner, 5)),
        body("middle", "200 entries", &mixed(owner, 200)),
        full("full", "as many such entries as 65,536 bytes hold", |count| mixed(owner, count)),
    ]
}

/// Lists that take longest to read, each in another way, for the first owner.
pub fn worst() -> Vec<Body> {
    let same = |entry: &str| {
        let entry = entry.to_owned();
        move |count: usize| vec![entry.clone(); count]
    };
    let members = {
        let list = body("", "", &["a".to_owned()]).text;
        let members = "\"\":1,".repeat((BODY_MAX - list.len()) / 5);
        format!("{{{members}{}", &list[1..])
    };
    vec![
        full("escaped", "web origins, every byte written as `\\u00xx`", |count| {
            (0..count).map(|n| escaped(&format!("https://w{n:04}.{OWNER}"))).collect()
        }),
        full("ports", "the caller's host on other ports", |count| {
            (0..count).map(|n| format!("https://none.{OWNER}:{}", 10_000 + n)).collect()
        }),
        full("native", "the shortest native identities", same("ios:bundle-id:a")),
        full("empty", "empty strings", same("")),
        full("two-byte", "entries of 256 characters of two bytes", same(&"\u{fc}".repeat(256))),
        full("long", "entries of 513 bytes", same(&"a".repeat(513))),
        Body { name: "members", what: "one entry after skipped members", entries: 1, text: members },
    ]
}
