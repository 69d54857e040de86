//! Microseconds for one cleaning, decision and tally of a full list, for owners with rules that go deeper than
//! their label: entries are looked up among these rules. Beside each list stands its base: the same list for an
//! owner with a label of the same length and public suffix that no rule goes deeper than.
//!
//! `cargo bench --bench owners -- base amazonaws` prints these parts alone; the others are `ends` and `all`.

#[path = "inputs/body.rs"]
mod body;
#[path = "../tests/hub/owners.rs"]
mod owners;
#[path = "../tests/hub/published.rs"]
mod published;
mod rows;
mod shapes;
mod timing;

use body::{Body, BODY_MAX, VERSION};
use facets_hub::{clean, decide, tally, Answer, Inputs, Refusal};
use owners::{appid, has_label, owners, Owner};
use publicsuffix::List;
use rows::{microseconds, Wanted};
use shapes::{below, beside, extremes, mixed, near, Shape};
use std::{collections::BTreeMap, hint::black_box, time::Duration};
use timing::{timed, ALL, HOW};

/// An owner that no rule goes deeper than.
const PLAIN: &str = "example.com";

/// The owner with the widest span of deeper rules.
const WIDEST: &str = "amazonaws.com";

/// A narrow span has fewer bytes.
const NARROW: usize = 150;

/// How long each call is timed where there are many.
const QUICK: Duration = Duration::from_millis(10);

#[derive(Clone, Copy)]
enum Call {
    Clean,
    Decide,
    Tally,
}

const CALLS: [(&str, Call); 3] = [("clean", Call::Clean), ("decide", Call::Decide), ("tally", Call::Tally)];

/// A full list of an owner.
struct Case<'a> {
    appid: String,
    /// On a host that the list does not have.
    caller: String,
    body: Body,
    kept: usize,
    table: &'a str,
}

impl<'a> Case<'a> {
    fn new(table: &'a str, appid: String, label: &str, shape: &Shape) -> Case<'a> {
        let body = shape.body(label);
        Case { appid, caller: format!("https://none.{label}"), kept: shape.kept(body.entries), body, table }
    }

    fn inputs(&self) -> Inputs<'_> {
        let (major, minor) = VERSION;
        Inputs {
            caller: self.caller.as_bytes(),
            appid: self.appid.as_bytes(),
            major,
            minor,
            record: &[2, 0, 200, 1],
            text: b"",
            body: self.body.text.as_bytes(),
            table: self.table.as_bytes(),
        }
    }

    /// The nanoseconds of a call, by rounds for so long.
    fn time(&self, call: Call, all: Duration) -> f64 {
        let inputs = self.inputs();
        let Inputs { appid, major, minor, body, table, .. } = inputs;
        match call {
            Call::Clean => {
                let mut out = [0; BODY_MAX];
                let cleaned = || clean(appid, major, minor, black_box(body), table, &mut out);
                let (length, time) = timed(all, cleaned);
                assert!(length.is_ok(), "{}", self.appid);
                time
            }
            Call::Decide => {
                let (answer, time) = timed(all, || decide(black_box(&inputs)));
                assert_eq!(answer, Answer::Refused(Refusal::NotListed), "{}", self.appid);
                time
            }
            Call::Tally => {
                let (counts, time) = timed(all, || tally(appid, major, minor, black_box(body), table));
                assert_eq!(counts.map(|counts| counts.kept as usize), Ok(self.kept), "{}", self.appid);
                time
            }
        }
    }
}

/// A list of an owner and its base.
struct Pair<'a> {
    label: &'a str,
    /// The bytes of the owner's span.
    span: usize,
    ours: Case<'a>,
    base: Case<'a>,
}

impl Pair<'_> {
    /// The time of the owner's list and that of the base.
    fn times(&self, call: Call, all: Duration) -> [f64; 2] {
        [&self.ours, &self.base].map(|case| case.time(call, all))
    }

    fn print(&self, call: &str, times: [f64; 2]) {
        let Body { name, entries, .. } = self.ours.body;
        let (label, span, ratio) = (self.label, self.span, times[0] / times[1]);
        let [ours, base] = times.map(microseconds);
        println!(
            "| {label:<23} | {span:>6} | {name:<7} | {entries:>7} | {call:<6} | {ours:>9} | {base:>7} | {ratio:>7.2} |"
        );
    }
}

fn print_head() {
    println!(
        "\n| owner                   |   span | list    | entries | call   |    facets |    base |   ratio |"
    );
    println!(
        "|-------------------------|-------:|---------|--------:|--------|----------:|--------:|--------:|"
    );
}

/// A table, as the crate has read it, and its owners.
struct Table<'a> {
    text: &'a str,
    list: &'a List,
    owners: BTreeMap<&'a str, Owner<'a>>,
}

impl<'a> Table<'a> {
    fn new(text: &'a str, list: &'a List) -> Table<'a> {
        Table { text, list, owners: owners(text, list) }
    }

    /// A label of the same length and public suffix that no rule goes deeper than.
    fn base(&self, label: &str) -> String {
        let (first, suffix) = label.split_once('.').expect("a dot");
        let mut bases = ('a'..='z').rev().map(|c| format!("{}.{suffix}", c.to_string().repeat(first.len())));
        let is_base = |base: &String| has_label(self.list, base, base) && !self.owners.contains_key(&**base);
        bases.find(is_base).expect("a base")
    }

    fn pair(&self, label: &'a str, shape: &Shape) -> Pair<'a> {
        let base_label = self.base(label);
        let ours = Case::new(self.text, appid(self.list, label), label, shape);
        let base_appid = ours.appid.replace(&format!("{label}/"), &format!("{base_label}/"));
        let base = Case::new(self.text, base_appid, &base_label, shape);
        // Of the base all is kept.
        let base = Case { kept: base.body.entries, ..base };
        Pair { label, span: self.owners[label].span.len(), ours, base }
    }

    fn rows(&self, label: &'a str, shapes: &[Shape]) {
        let pairs: Vec<Pair> = shapes.iter().map(|shape| self.pair(label, shape)).collect();
        for Body { name, what, .. } in pairs.iter().map(|pair| &pair.ours.body) {
            println!("list {name}: {what}");
        }
        print_head();
        for pair in &pairs {
            for (name, call) in CALLS {
                pair.print(name, pair.times(call, ALL));
            }
        }
    }

    /// For each list and call the row with the largest ratio of all owners with such spans.
    fn worst_rows(&self, is_such: impl Fn(usize) -> bool) {
        let owners = || self.owners.iter().filter(|(_, owner)| is_such(owner.span.len()));
        let lists: [Vec<Pair>; 2] = [
            owners().map(|(label, _)| self.pair(label, &beside(self.list, label))).collect(),
            owners().map(|(label, owner)| self.pair(label, &below(label, owner))).collect(),
        ];
        print_head();
        for pairs in lists {
            for (name, call) in CALLS {
                if let Some((pair, times)) = worst(&pairs, call) {
                    pair.print(name, times);
                }
            }
        }
    }
}

/// The list with the largest ratio, and its times.
fn worst<'a>(pairs: &'a [Pair], call: Call) -> Option<(&'a Pair<'a>, [f64; 2])> {
    let ratio = |times: [f64; 2]| times[0] / times[1];
    let mut worst = None;
    for pair in pairs {
        let least = worst.map_or(0.0, |(_, times)| ratio(times));
        // One that may be the worst is timed again, for longer.
        if ratio(pair.times(call, QUICK)) > least {
            worst = Some((pair, pair.times(call, ALL))).filter(|(_, times)| ratio(*times) > least).or(worst);
        }
    }
    worst
}

/// The times of the plain owner alone.
fn base_rows(table: &Table) {
    let case = Case::new(table.text, appid(table.list, PLAIN), PLAIN, &beside(table.list, PLAIN));
    for (name, call) in CALLS {
        let (Body { name: list, entries, .. }, time) = (&case.body, microseconds(case.time(call, ALL)));
        println!("{PLAIN}, {list}, {entries} entries, {name}: {time}");
    }
}

/// The lists of the owner with the widest span, those that may take longest among them.
fn widest_rows(table: &Table) {
    let owner = &table.owners[WIDEST];
    let (beside, below) = (beside(table.list, WIDEST), below(WIDEST, owner));
    let (mixed, near) = (mixed(&beside, &below), near(table.list, WIDEST, owner));
    let shapes: Vec<Shape> = [beside, below, mixed, near].into_iter().chain(extremes(WIDEST)).collect();
    println!("\nThe published table, the owner with the widest span:");
    table.rows(WIDEST, &shapes);
}

/// Tables with a rule below the plain owner as the first line and another as the last: the published one, and of a
/// mebibyte those of short lines and of one comment of control bytes.
fn ends_rows(table: &Table) {
    let short = "m\n".repeat(524_000);
    let comment = format!("//{}\n", "c\u{b}".repeat(524_000));
    let between = [("the published table", table.text), ("lines `m`", &short), ("a comment", &comment)];
    for (name, between) in between {
        let text = format!("deep.{PLAIN}\n{between}deeper.{PLAIN}\n");
        let table = Table::new(&text, table.list);
        let (beside, below) = (beside(table.list, PLAIN), below(PLAIN, &table.owners[PLAIN]));
        println!("\nA deeper rule as the first line, another as the last, {name} between:");
        table.rows(PLAIN, &[beside, below]);
    }
}

fn all_rows(table: &Table) {
    let narrow = |span: usize| span < NARROW;
    let count = table.owners.values().filter(|owner| narrow(owner.span.len())).count();
    println!(
        "\nAll owners: rounds of {QUICK:?} in all, and of {ALL:?} where a call may have the largest ratio."
    );
    println!("\nThe largest ratios of {count} owners with a span under {NARROW} bytes:");
    table.worst_rows(narrow);
    println!("\nThe largest ratios of {} owners with a wider span:", table.owners.len() - count);
    table.worst_rows(|span| !narrow(span));
}

type Part = fn(&Table);

fn main() {
    const PARTS: [(&str, Part); 4] =
        [("base", base_rows), ("amazonaws", widest_rows), ("ends", ends_rows), ("all", all_rows)];
    let names = PARTS.map(|(name, _)| name);
    let wanted = Wanted::new(&names);
    let list: List = published::list().parse().expect("the published list");
    let text = published::table();
    let table = Table::new(&text, &list);
    println!("Microseconds a call: {HOW}.");
    println!("The span is the bytes of the table from the first deeper rule to the end of the last.\n");
    for (name, rows) in PARTS {
        if wanted.has(&names, name) {
            rows(&table);
        }
    }
}
