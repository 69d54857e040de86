//! Lists of an owner, of as many entries as fit, by what stands before the owner's label in their hosts.

use crate::{
    body::{full, Body},
    owners::{has_label, name, Owner},
};
use publicsuffix::List;
use std::cmp::Reverse;

/// A kind of list: what stands before the label in its hosts, which come round again, and whether they are kept.
pub struct Shape {
    name: &'static str,
    what: &'static str,
    starts: Vec<(String, bool)>,
}

impl Shape {
    fn new(name: &'static str, what: &'static str, starts: Vec<String>, kept: bool) -> Shape {
        Shape { name, what, starts: starts.into_iter().map(|start| (start, kept)).collect() }
    }

    fn starts(&self, count: usize) -> impl Iterator<Item = &(String, bool)> {
        self.starts.iter().cycle().take(count)
    }

    /// As many entries as fit.
    pub fn body(&self, label: &str) -> Body {
        let origins =
            |count| self.starts(count).map(|(start, _)| format!("https://{start}{label}")).collect();
        full(self.name, self.what, origins)
    }

    /// How many of so many entries are kept.
    pub fn kept(&self, entries: usize) -> usize {
        self.starts(entries).filter(|(_, kept)| *kept).count()
    }
}

/// Hosts that no deeper rule matches: one label before the owner's, or the label where a wildcard takes all.
pub fn beside(list: &List, label: &str) -> Shape {
    let what = "hosts in no deeper branch";
    let one = has_label(list, &format!("x.{label}"), label);
    let starts = if one { (0..9999).map(|n| format!("x{n:05}.")).collect() } else { vec![String::new()] };
    Shape::new("beside", what, starts, true)
}

/// What stands before the owner's label in a rule.
fn start_of(rule: &str, label: &str) -> String {
    let name = name(rule);
    name[..name.len() - label.len()].to_owned()
}

/// Hosts below the shortest of the deeper rules.
pub fn below(label: &str, owner: &Owner) -> Shape {
    let mut starts: Vec<String> =
        owner.rules.iter().map(|rule| format!("a.{}", start_of(rule, label))).collect();
    starts.sort_by_key(String::len);
    starts.truncate(8);
    Shape::new("below", "hosts below the shortest deeper rules", starts, false)
}

/// The two in turn.
pub fn mixed(beside: &Shape, below: &Shape) -> Shape {
    let pairs = beside.starts.iter().zip(below.starts.iter().cycle());
    let starts = pairs.flat_map(|(one, other)| [one.clone(), other.clone()]).collect();
    Shape { name: "mixed", what: "the two in turn", starts }
}

/// Hosts beside the deeper rules of most labels, which share all labels with them but one.
pub fn near(list: &List, label: &str, owner: &Owner) -> Shape {
    let sibling = |rule: &&str| {
        let start = start_of(rule, label);
        format!("x.{}", start.split_once('.').map_or("", |(_, rest)| rest))
    };
    let mut starts: Vec<String> = owner.rules.iter().map(sibling).collect();
    starts.retain(|start| has_label(list, &format!("{start}{label}"), label));
    starts.sort_by_key(|start| Reverse(start.split('.').count()));
    starts.truncate(8);
    Shape::new("near", "hosts that share all labels but one with the longest deeper rules", starts, true)
}

/// The shortest hosts, and those of most labels.
pub fn extremes(label: &str) -> [Shape; 3] {
    let dots = |count: usize| vec!["a.".repeat(count)];
    [
        Shape::new("at", "the label", vec![String::new()], true),
        Shape::new("dots", "hosts with 16 labels more", dots(16), true),
        Shape::new(
            "longest",
            "hosts of 253 bytes, labels of one letter",
            dots((253 - label.len()) / 2),
            true,
        ),
    ]
}
