//! The owners of a table: its private labels that rules go deeper than. Labels are those of the crate
//! `publicsuffix`.

use crate::published::rules;
use publicsuffix::{List, Psl};
use std::{collections::BTreeMap, ops::Range};

pub struct Owner<'a> {
    /// The rules that go deeper than the label, in the table's order.
    pub rules: Vec<&'a str>,
    /// The bytes of the table from the first of these rules to the end of the last.
    pub span: Range<usize>,
}

/// The host's private label is this one.
pub fn has_label(list: &List, host: &str, label: &str) -> bool {
    list.domain(host.as_bytes()).is_some_and(|domain| domain.as_bytes() == label.as_bytes())
}

/// The owners by their labels.
pub fn owners<'a>(table: &'a str, list: &List) -> BTreeMap<&'a str, Owner<'a>> {
    let mut owners: BTreeMap<&str, Owner> = BTreeMap::new();
    let mut start = 0;
    for line in table.split_inclusive('\n') {
        for rule in rules(line) {
            let mut name = rule;
            // A mark stands in the first label, which is in no owner's.
            while let Some((_, parent)) = name.split_once('.') {
                name = parent;
                if has_label(list, name, name) {
                    let owner = owners.entry(name).or_insert(Owner { rules: Vec::new(), span: start..start });
                    owner.rules.push(rule);
                    owner.span.end = start + rule.len();
                }
            }
        }
        start += line.len();
    }
    owners
}

/// The name of a rule, a label in place of its `*`.
pub fn name(rule: &str) -> String {
    rule.trim_start_matches('!').replacen('*', "s", 1)
}

/// An AppID with this label: on the host `www` below it, or on the label where that host has another.
pub fn appid(list: &List, label: &str) -> String {
    let www = format!("www.{label}");
    let host = if has_label(list, &www, label) { &www } else { label };
    format!("https://{host}/appID")
}
