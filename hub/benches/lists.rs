//! Microseconds for one label, decision, cleaning and tally: the proved library, which reads body and table on
//! every call and keeps nothing, beside a Rust program with serde_json and the crate `publicsuffix`, which reads
//! the body on every call and read the table once before. Prints the table of docs/PERFORMANCE.md.
//!
//! `cargo bench --bench lists -- small deeper` prints the rows of these tables and lists alone.

mod inputs;
#[path = "../tests/hub/published.rs"]
mod published;
mod reference;
mod rows;
mod timing;

use facets_hub::{clean, decide, private_label, tally, Answer, Inputs, Refusal};
use inputs::{Body, Table, VERSION};
use publicsuffix::List;
use reference::{label_length, Reference};
use rows::{microseconds, Wanted};
use std::{fmt::Debug, hint::black_box};
use timing::{timed, ALL, HOW};

const NO_LIST: &str = "-";

/// Decisions by their callers; a web caller's host goes on with the owner.
const NATIVE_FIRST: (&str, &str) = ("decide, native, first entry", "ios:bundle-id:com.acme.first");
const NATIVE_LAST: (&str, &str) = ("decide, native, last entry", "ios:bundle-id:com.acme.last");
const NATIVE_NONE: (&str, &str) = ("decide, native, no entry", "ios:bundle-id:com.acme.none");
const WEB_FIRST: (&str, &str) = ("decide, web, second entry", "https://first.");
const WEB_LAST: (&str, &str) = ("decide, web, last entry but one", "https://last.");
const WEB_NONE: (&str, &str) = ("decide, web, no entry", "https://none.");

/// The rows of one table and list.
struct Rows<'a> {
    table: &'a Table,
    list: &'a str,
    /// The largest ratio of a list so far, and its row.
    most: (f64, String),
}

impl Rows<'_> {
    fn print(&self, call: &str, ours: &str, other: &str, ratio: &str) {
        let (table, list) = (self.table.name, self.list);
        println!("| {table:<9} | {list:<8} | {call:<31} | {ours:>8} | {other:>8} | {ratio:>8} |");
    }

    /// Times both programs and asserts that they give the same.
    fn row<T: PartialEq + Debug>(&mut self, call: &str, ours: impl FnMut() -> T, other: impl FnMut() -> T) {
        let ((ours, time), (others, other_time)) = (timed(ALL, ours), timed(ALL, other));
        assert_eq!(ours, others, "{}, {}, {call}", self.table.name, self.list);
        let ratio = time / other_time;
        self.print(call, &microseconds(time), &microseconds(other_time), &format!("{ratio:.1}"));
        if ratio > self.most.0 && self.list != NO_LIST {
            self.most = (ratio, format!("{}, {}", self.list, call));
        }
    }

    fn label(&mut self, host: &str) {
        let Table { text: table, list, .. } = self.table;
        let call = if host.len() < 24 {
            format!("label, {host}")
        } else {
            format!("label, a host of {} bytes", host.len())
        };
        self.row(
            &call,
            || private_label(black_box(host.as_bytes()), black_box(table.as_bytes())).len(),
            || label_length(list, black_box(host)),
        );
    }

    fn labels(&mut self) {
        let longest = format!("{}{}.com", "a.".repeat(93), "l".repeat(63));
        for host in ["www.example.com", "www.example.co.uk", "x00000.example.com", &longest] {
            self.label(host);
        }
        let (_, reading) = timed(ALL, || self.table.other.parse::<List>().is_ok());
        self.print("reading the table before", "", &microseconds(reading), "");
    }

    fn decision(&mut self, body: &str, (call, caller): (&str, &str)) {
        let Table { owner, appid, text: table, list, .. } = self.table;
        let owner = if caller.starts_with("https://") { owner } else { "" };
        let caller = format!("{caller}{owner}");
        let (major, minor) = VERSION;
        let inputs = Inputs {
            caller: caller.as_bytes(),
            appid: appid.as_bytes(),
            major,
            minor,
            record: &[2, 0, 200, 1],
            text: b"",
            body: body.as_bytes(),
            table: table.as_bytes(),
        };
        let ours = || match decide(black_box(&inputs)) {
            Answer::Rule4 { place } => Some(place as usize),
            Answer::Refused(Refusal::NotListed) => None,
            other => panic!("{other:?}"),
        };
        let other = || reference(appid, body, list).place(black_box(&caller));
        self.row(call, ours, other);
    }

    /// Cleaning into an output with room for any list, and into one that is just as long as the list.
    fn cleaning(&mut self, body: &str) {
        let Table { appid, text: table, list, .. } = self.table;
        let (major, minor) = VERSION;
        let expected = reference(appid, body, list).clean(VERSION);
        for (call, room) in [("clean", 65_536), ("clean, output just long enough", expected.len())] {
            let mut out = vec![0; room];
            let cleaned = || {
                let length = clean(
                    appid.as_bytes(),
                    major,
                    minor,
                    black_box(body.as_bytes()),
                    table.as_bytes(),
                    &mut out,
                );
                length.expect("a list")
            };
            self.row(call, cleaned, || reference(appid, body, list).clean(VERSION).len());
            // The last of the calls left its list in the output.
            assert!(out.starts_with(expected.as_bytes()), "{}, {}", self.table.name, self.list);
        }
    }

    fn tally(&mut self, body: &str) {
        let Table { appid, text: table, list, .. } = self.table;
        let (major, minor) = VERSION;
        let ours = || {
            let counts = tally(appid.as_bytes(), major, minor, black_box(body.as_bytes()), table.as_bytes())
                .expect("a list");
            [counts.kept, counts.too_long, counts.other_scheme, counts.not_facet, counts.other_label]
        };
        self.row("tally", ours, || reference(appid, body, list).tally());
    }
}

fn reference<'a>(appid: &str, body: &str, list: &'a List) -> Reference<'a> {
    Reference::new(black_box(appid), VERSION, black_box(body.as_bytes()), list).expect("a list")
}

/// The decisions that are timed with a table: all with the published one, few with the others.
fn callers(table: &Table, list: &str) -> Vec<(&'static str, &'static str)> {
    match (table.name, list) {
        ("published", "small" | "middle" | "full") => {
            vec![NATIVE_FIRST, NATIVE_LAST, NATIVE_NONE, WEB_FIRST, WEB_LAST, WEB_NONE]
        }
        // Seconds each.
        ("deeper", "full") => vec![NATIVE_FIRST, WEB_NONE],
        ("deeper" | "amazonaws", _) => vec![NATIVE_FIRST, NATIVE_NONE, WEB_NONE],
        _ => vec![NATIVE_NONE, WEB_NONE],
    }
}

fn main() {
    let (tables, common, worst) = (inputs::tables(), inputs::common("example.com"), inputs::worst());
    let lists: Vec<&Body> = common.iter().chain(&worst).collect();
    let table_names: Vec<&str> = tables.iter().map(|table| table.name).collect();
    let list_names: Vec<&str> = lists.iter().map(|body| body.name).chain(["label"]).collect();
    let wanted = Wanted::new(&[&table_names[..], &list_names].concat());

    for table in &tables {
        println!("table {}: {}; {} bytes", table.name, table.what, table.text.len());
    }
    for Body { name, what, entries, text } in lists {
        println!("list {name}: {what}; {entries} entries, {} bytes", text.len());
    }
    println!("\nMicroseconds a call: {HOW}.\n");
    println!("| table     | list     | call                            |   facets |    other |    ratio |");
    println!("|-----------|----------|---------------------------------|---------:|---------:|---------:|");
    let mut most = Vec::new();
    for table in tables.iter().filter(|table| wanted.has(&table_names, table.name)) {
        let mut rows = Rows { table, list: NO_LIST, most: (0.0, String::new()) };
        if wanted.has(&list_names, "label") && table.name != "amazonaws" {
            rows.labels();
        }
        let common = inputs::common(table.owner);
        let worst: &[Body] = if table.name == "published" { &worst } else { &[] };
        for body in common.iter().chain(worst).filter(|body| wanted.has(&list_names, body.name)) {
            rows.list = body.name;
            for caller in callers(table, body.name) {
                rows.decision(&body.text, caller);
            }
            rows.cleaning(&body.text);
            rows.tally(&body.text);
        }
        most.push(format!("{}: {:.1} ({})", table.name, rows.most.0, rows.most.1));
    }
    println!("\nLargest ratio of a list with each table: {}", most.join("; "));
}
