//! Lists under rules that go deeper than the AppID's private label, beside the model.
//!
//! A rule goes deeper than a label where it has more labels, its last ones those of the label. The span of a
//! table is its lines from the first such rule to the last.

use crate::{
    case::Case,
    check, hand,
    make::{deeper::Owner, identifier::url},
    model::{
        decision::code,
        identifier::{facet, url_host, Facet},
        list,
        suffix::{self, Answer, Kind, Rule},
    },
    random::Random,
};
use std::{collections::BTreeMap, ops::RangeInclusive};

const ROUNDS: usize = 200_000;

type Label = Vec<u8>;

/// A line of a table.
enum Line {
    Blank,
    Comment,
    Bad,
    Rule(Rule),
}

fn line(bytes: &[u8]) -> Line {
    match suffix::content(bytes) {
        None if bytes.starts_with(b"//") => Line::Comment,
        None => Line::Blank,
        Some(content) => suffix::rule(&content).map_or(Line::Bad, Line::Rule),
    }
}

/// The last of these labels are those of the label.
fn ends_in(labels: &[Label], label: &[Label]) -> bool {
    let mut pairs = labels.iter().rev().zip(label.iter().rev());
    labels.len() >= label.len() && pairs.all(|(a, b)| a.eq_ignore_ascii_case(b))
}

/// A table with rules that go deeper than the AppID's private label.
struct Table<'a> {
    bytes: &'a [u8],
    lines: Vec<Line>,
    /// The AppID's host, its private label, and the kind of the rule this comes from; bad lines aside.
    host: Vec<Label>,
    label: Vec<Label>,
    kind: Kind,
    span: RangeInclusive<usize>,
}

impl Table<'_> {
    fn new<'a>(appid: &[u8], bytes: &'a [u8]) -> Option<Table<'a>> {
        let all = || bytes.split(|&b| b == b'\n');
        let good: Vec<&[u8]> = all().filter(|bytes| !matches!(line(bytes), Line::Bad)).collect();
        let host = url_host(appid)?;
        let Answer::Label(label, kind) = suffix::private_label(&host, &good.join(&b'\n')) else {
            return None;
        };
        let (host, label) = (suffix::host(&host)?, suffix::host(&label)?);
        let lines: Vec<Line> = all().map(line).collect();
        let first = lines.iter().position(|line| is_deeper(line, &label))?;
        let last = lines.iter().rposition(|line| is_deeper(line, &label))?;
        Some(Table { bytes, lines, host, label, kind, span: first..=last })
    }

    fn deeper(&self) -> impl Iterator<Item = &Rule> {
        rules(&self.lines).filter(|rule| goes_deeper(rule, &self.label))
    }

    fn others(&self) -> impl Iterator<Item = &Rule> {
        rules(&self.lines).filter(|rule| !goes_deeper(rule, &self.label))
    }
}

fn rules(lines: &[Line]) -> impl Iterator<Item = &Rule> {
    lines.iter().filter_map(|line| match line {
        Line::Rule(rule) => Some(rule),
        _ => None,
    })
}

fn goes_deeper(rule: &Rule, label: &[Label]) -> bool {
    rule.labels.len() > label.len() && ends_in(&rule.labels, label)
}

fn is_deeper(line: &Line, label: &[Label]) -> bool {
    matches!(line, Line::Rule(rule) if goes_deeper(rule, label))
}

/// How often each class of tables and entries came up.
#[derive(Default)]
struct Classes(BTreeMap<&'static str, usize>);

impl Classes {
    fn note(&mut self, class: &'static str, holds: bool) {
        *self.0.entry(class).or_default() += usize::from(holds);
    }

    /// Where the span lies, and what lies in it.
    fn span(&mut self, table: &Table) {
        let (first, last) = (*table.span.start(), *table.span.end());
        let closed = table.bytes.ends_with(b"\n");
        // Behind the last LF there is no line.
        let end = table.lines.len() - usize::from(closed);
        let at_end = last + 1 == end;
        self.note("span at the start", first == 0 && !at_end);
        self.note("span at the end, an LF behind it", first > 0 && at_end && closed);
        self.note("span at the end, no LF behind it", first > 0 && at_end && !closed);
        self.note("span in the middle", first > 0 && !at_end);
        self.note("span all of the table", first == 0 && at_end);
        self.note("deeper rules alone", table.others().next().is_none());
        self.note("one deeper rule alone", rules(&table.lines).count() == 1);
        let inside = &table.lines[first..=last];
        self.note("comment in the span", inside.iter().any(|line| matches!(line, Line::Comment)));
        self.note("blank line in the span", inside.iter().any(|line| matches!(line, Line::Blank)));
        self.note("other rules in the span", rules(inside).any(|rule| !goes_deeper(rule, &table.label)));
        let bytes: Vec<&[u8]> = table.bytes.split(|&b| b == b'\n').collect();
        let blank = |at: usize| suffix::content(bytes[at]).is_some_and(|content| content != bytes[at]);
        self.note("blanks behind the first rule of a span", blank(first));
        self.note("blanks behind the last rule of a span", blank(last));
    }

    /// Whether there is a bad line, and where the first is.
    fn bad(&mut self, table: &Table) -> bool {
        let bad = table.lines.iter().position(|line| matches!(line, Line::Bad));
        let (first, last) = (table.span.start(), table.span.end());
        self.note("bad line before the span", bad.is_some_and(|at| at < *first));
        self.note("bad line in the span", bad.is_some_and(|at| table.span.contains(&at)));
        self.note("bad line behind the span", bad.is_some_and(|at| at > *last));
        bad.is_some()
    }

    /// How the AppID's host stands to the rules.
    fn appid(&mut self, table: &Table) {
        let Table { label, host, kind, .. } = table;
        let exception = *kind == Kind::Exception;
        self.note("label by an exception", exception);
        let matched = table.deeper().any(|rule| rule.matches(host));
        self.note("label by an exception against deeper rules", exception && matched);
        self.note("AppID's host below the label", host.len() > label.len());
        // Which of the deeper rules go deeper than the label and one more of the host.
        let more = &host[host.len().saturating_sub(label.len() + 1)..];
        let further = |rule| host.len() > label.len() && goes_deeper(rule, more);
        let further: Vec<bool> = table.deeper().map(further).collect();
        let comes = |order: [bool; 2]| further.windows(2).any(|two| two == order);
        self.note("deeper than more of the host, then deeper", comes([true, false]));
        self.note("deeper, then deeper than more of the host", comes([false, true]));
    }

    /// Which rules there are.
    fn rules(&mut self, table: &Table) {
        let label = &table.label;
        let is_label = |rule: &Rule| rule.labels.len() == label.len() && rule.matches(label);
        let equal = table.others().any(|rule| rule.kind != Kind::Exception && is_label(rule));
        self.note("rule equal to the label", equal);
        let bytes = label.join(&b'.');
        let glued = table.others().any(|rule| glued(&rule.labels, &bytes));
        self.note("rule ends in the label, not at a dot", glued);
        let mut names: Vec<&Vec<Label>> = table.deeper().map(|rule| &rule.labels).collect();
        let count = names.len();
        names.sort();
        names.dedup();
        self.note("deeper rules with the same name", names.len() < count);
        let unlike = |rule: &Rule| !rule.labels.ends_with(label);
        self.note("deeper rule in other case", table.deeper().any(unlike));
    }

    /// What becomes of an entry by the rules.
    fn entry(&mut self, table: &Table, host: &[u8]) {
        let Some(labels) = suffix::host(host) else {
            return;
        };
        let label = table.label.join(&b'.');
        let answer = suffix::private_label(host, table.bytes);
        let kept = answer.part().eq_ignore_ascii_case(&label);
        let (Answer::Label(_, kind) | Answer::EqualsSuffix(kind)) = answer else {
            return;
        };
        let under = ends_in(&labels, &table.label);
        let discarded = |by: Kind| under && !kept && kind == by;
        let matched = table.deeper().any(|rule| rule.matches(&labels));
        let exception = kind == Kind::Exception;
        self.note("kept at the label", kept && labels.len() == table.label.len());
        self.note("kept below the label", kept && labels.len() > table.label.len() && !exception);
        self.note("kept by an exception against deeper rules", kept && exception && matched);
        self.note("discarded by a plain rule", discarded(Kind::Plain));
        self.note("discarded by a wildcard", discarded(Kind::Wildcard));
        self.note("discarded by an exception", discarded(Kind::Exception));
        self.note("host ends in the label, not at a dot", glued(&labels, &label));
    }

    fn case(&mut self, case: &Case) {
        let Some(table) = Table::new(&case.appid, &case.table) else {
            return self.note("no deeper rule", true);
        };
        if self.bad(&table) {
            return;
        }
        self.span(&table);
        self.appid(&table);
        self.rules(&table);
        for entry in list::selected(&case.body, case.major, case.minor).expect("a list") {
            if let Some(Facet::Web(web)) = facet(&entry) {
                self.entry(&table, &web.host);
            }
        }
    }
}

/// The name ends in the label's bytes, and not behind a dot.
fn glued(labels: &[Label], label: &[u8]) -> bool {
    let name = labels.join(&b'.').to_ascii_lowercase();
    let before = name.strip_suffix(&label.to_ascii_lowercase()[..]);
    before.is_some_and(|before| before.last().is_some_and(|&b| b != b'.'))
}

/// Lists about one owner, with rules that go deeper than its label at all places of the table.
#[test]
fn generated_lists_under_deeper_rules_beside_the_model() {
    let mut random = Random::new(8);
    let mut classes = Classes::default();
    let mut codes: BTreeMap<u16, usize> = BTreeMap::new();
    for _ in 0..ROUNDS {
        let owner = Owner::any(&mut random);
        let entries = owner.entries(&mut random);
        let app = owner.app(&mut random);
        let case = Case {
            caller: entries[random.below(entries.len())].clone().into(),
            appid: url(&mut random, &app).into(),
            table: owner.table(&mut random),
            ..hand::case(&entries)
        };
        *codes.entry(code(check::decision(&case))).or_default() += 1;
        let length = case.cleaning().list().map_or(100, |list| list.len());
        let _ = check::cleaning(&case, &vec![b'#'; length - 1 + random.below(4)]);
        let _ = check::tallying(&case);
        classes.case(&case);
    }
    println!("{ROUNDS} lists under deeper rules: decisions {codes:?}; {:#?}", classes.0);
    let rare: Vec<_> = classes.0.iter().filter(|(_, &count)| count < 1_000).collect();
    assert!(rare.is_empty(), "fewer than 1,000 of {rare:?}");
    for code in [3, 4, 113, 114] {
        assert!(codes.get(&code) >= Some(&1_000), "decisions {code}");
    }
}

/// Between two deeper rules lie lines of this kind, so many that the span has this length.
fn spanned(filler: &str, span: usize) -> Vec<u8> {
    let (first, last) = ("a.example.com\n!x.b.example.com\n*.b.example.com\n", "\nc.example.com");
    let room = span - first.len() - last.len();
    let mut between = filler.repeat(room / filler.len());
    between.push_str(&" ".repeat(room - between.len()));
    format!("com\n{first}{between}{last}\n").into_bytes()
}

#[test]
fn spans_on_both_sides_of_the_length_that_is_looked_at_line_by_line() {
    let long = format!("{}.d.example.com\n", "l".repeat(63));
    let blanks = format!("e.example.com{}x\n", " ".repeat(80));
    let comment = "//\u{b}\u{1f}c\u{b} and some more bytes than one block of sixty-four has in it\n";
    let fillers = ["m\n", "\n", "m.com\r\n", "//\n", comment, &long, &blanks];
    let hosts = ["www", "a", "w.a", "b", "y.b", "w.y.b", "x.b", "w.x.b", "c", "w.c", "e", "w.e", "w.l.d"];
    let ids: Vec<String> = hosts.iter().map(|host| format!("https://{host}.example.com")).collect();
    for filler in fillers {
        for span in [200, 4096, 8191, 8192, 8193, 8194, 20_000] {
            let mut case = hand::case(&ids);
            case.table = spanned(filler, span);
            let [kept, .., other_label] = check::tallying(&case).expect("a good table");
            assert!(kept >= 3 && other_label >= 8, "{filler:?}, {span} bytes");
            check::cleaning(&case, &[0; 1000]).expect("room");
            // Each caller is one of the entries: those that are kept are allowed, by rule 3 where it is the AppID's host.
            let allowed = ids.iter().filter(|caller| {
                case.caller = caller.as_bytes().into();
                [3, 4].contains(&code(check::decision(&case)))
            });
            assert_eq!(allowed.count(), kept as usize, "{filler:?}, {span} bytes");
        }
    }
}
