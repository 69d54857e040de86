//! Tables with rules that go deeper than a private label, and hosts near these rules.

use super::{
    identifier::origin,
    list,
    table::{join, labels, line_of, rule, BAD_LINES},
};
use crate::{owners::name, random::Random};

/// Private labels, each with the rules it comes from. With no match the rule `*` prevails.
const LABELS: [(&str, &[&str]); 9] = [
    ("b.c", &[]),
    ("b.c", &["c"]),
    ("B.c", &["*", "C"]),
    ("a-1.b.c", &["b.C"]),
    ("a.b.c", &["*.c"]),
    ("b.ck", &["!b.ck"]),
    ("b.ck", &["*.ck", "!B.cK"]),
    ("b.ck", &["!b.ck", "b.ck", "c.ck"]),
    ("a.b.c", &["*.b.c", "a.b.c", "!a.b.c"]),
];

/// A private label, the rules it comes from, and rules that go deeper.
pub struct Owner {
    label: &'static str,
    base: &'static [&'static str],
    deeper: Vec<String>,
}

/// A host below a name.
fn below(random: &mut Random, name: &str) -> String {
    String::from_utf8(labels(random, 1, 2)).expect("ASCII") + "." + name
}

/// Hosts at a rule, below it and beside it.
pub fn around(rule: &str) -> Vec<String> {
    let name = name(rule);
    let mut hosts =
        vec![format!("a.{name}"), format!("a.b.{name}"), format!("x{name}"), format!("a.x{name}")];
    if let Some((_, parent)) = name.split_once('.') {
        hosts.extend([parent.to_owned(), format!("a.{parent}"), format!("a.b.{parent}")]);
    }
    hosts.push(name);
    hosts
}

impl Owner {
    pub fn any(random: &mut Random) -> Owner {
        let (label, base) = LABELS[random.below(LABELS.len())];
        let deeper = (0..1 + random.below(4)).map(|_| deeper_rule(random, label)).collect();
        Owner { label, base, deeper }
    }

    /// A host near the label or near one of the rules that go deeper.
    pub fn host(&self, random: &mut Random) -> String {
        let near = match random.below(10) {
            0..=2 => self.label,
            3 => return below(random, self.label),
            _ => &self.deeper[random.below(self.deeper.len())],
        };
        let mut hosts = around(near);
        hosts.swap_remove(random.below(hosts.len()))
    }

    /// The AppID's host: mostly the label, or a host below it.
    pub fn app(&self, random: &mut Random) -> String {
        match random.below(10) {
            0..=3 => self.label.to_owned(),
            4..=6 => format!("{}.{}", random.pick(&["www", "W", "y.z"]), self.label),
            _ => self.host(random),
        }
    }

    /// Few entries, most of them web origins near the rules.
    pub fn entries(&self, random: &mut Random) -> Vec<String> {
        let entry = |random: &mut Random| match random.below(20) {
            0 => list::entry(random, self.label),
            _ => {
                let host = self.host(random);
                origin(random, &host)
            }
        };
        (0..1 + random.below(6)).map(|_| entry(random)).collect()
    }

    /// A table of all the rules and of others, now and then a bad one.
    pub fn table(&self, random: &mut Random) -> Vec<u8> {
        let mut deeper: Vec<Vec<u8>> =
            self.deeper.iter().map(|rule| line_of(random, rule.clone().into())).collect();
        if random.chance(20) {
            deeper.push(deeper[0].clone());
        }
        let others = self.others(random);
        let mut lines = arranged(random, deeper, others);
        if random.chance(5) {
            let bad = random.pick(&BAD_LINES).to_vec();
            lines.insert(random.below(lines.len() + 1), bad);
        }
        join(random, &lines)
    }

    /// The rules of the label and others that do not go deeper, in any order; long comments.
    fn others(&self, random: &mut Random) -> Vec<Vec<u8>> {
        let mut lines: Vec<Vec<u8>> = self.base.iter().map(|&rule| rule.into()).collect();
        let more = if random.chance(3) { 30 } else { 4 };
        for _ in 0..random.below(more) {
            let line = if random.chance(15) {
                format!("//{}", "c".repeat(random.below(150))).into()
            } else {
                let rule = other_rule(random, self.label);
                line_of(random, rule)
            };
            lines.insert(random.below(lines.len() + 1), line);
        }
        lines
    }
}

/// A rule that goes deeper than a label: by one label or two, plain, a wildcard or an exception.
fn deeper_rule(random: &mut Random, label: &str) -> String {
    let name = below(random, label);
    let mut rule = match random.below(8) {
        0..=3 => name,
        4 => format!("*.{label}"),
        5 => format!("*.{name}"),
        _ => format!("!{name}"),
    };
    if random.chance(20) {
        rule = rule.to_ascii_uppercase();
    }
    rule
}

/// A rule that does not go deeper, but for a wildcard.
fn other_rule(random: &mut Random, label: &str) -> Vec<u8> {
    let mark = random.pick(&["", "", "*.", "!"]);
    let parent = label.split_once('.').expect("a dot").1;
    let rule = match random.below(12) {
        // The label's bytes, not behind a dot or not at the end.
        0..=3 => format!("{mark}{}{label}", random.pick(&["x", "a.x", "a-", "0"])),
        4 => format!("{mark}{label}.{}", random.pick(&["c", "x"])),
        5 => format!("{mark}{label}"),
        6 | 7 => format!("{}{parent}", random.pick(&["", "*.", "x.", "*.x."])),
        _ => return rule(random),
    };
    rule.into_bytes()
}

/// The deeper lines first, last, between the others, alone, or apart from each other.
fn arranged(random: &mut Random, deeper: Vec<Vec<u8>>, mut others: Vec<Vec<u8>>) -> Vec<Vec<u8>> {
    match random.below(6) {
        0 => [deeper, others].concat(),
        1 => [others, deeper].concat(),
        2 => {
            let (before, behind) = others.split_at(random.below(others.len() + 1));
            [before, &deeper, behind].concat()
        }
        3 => deeper,
        _ => {
            for line in deeper {
                others.insert(random.below(others.len() + 1), line);
            }
            others
        }
    }
}
