//! "Hosts and private labels": the document's sentences stand above the lines that say the same.

type Label = Vec<u8>;

/// The labels of a host, as given; nothing where it is malformed.
pub fn host(bytes: &[u8]) -> Option<Vec<Label>> {
    // A host is 1 to 253 bytes of labels joined by dots.
    if bytes.is_empty() || bytes.len() > 253 {
        return None;
    }
    let labels: Vec<Label> = bytes.split(|&b| b == b'.').map(<[u8]>::to_vec).collect();
    labels.iter().all(|l| is_label(l)).then_some(labels)
}

/// A label is 1 to 63 letters, digits or hyphens, with no hyphen first or last.
fn is_label(label: &[u8]) -> bool {
    let allowed = |b: &u8| b.is_ascii_alphanumeric() || *b == b'-';
    (1..=63).contains(&label.len())
        && label.iter().all(allowed)
        && label[0] != b'-'
        && label[label.len() - 1] != b'-'
}

/// The kinds of rule; `Default` is the rule `*` that prevails with no match.
#[derive(Clone, Copy, Debug, PartialEq, Eq, PartialOrd, Ord)]
pub enum Kind {
    Plain,
    Star,
    Wildcard,
    Exception,
    Default,
}

pub struct Rule {
    pub kind: Kind,
    pub labels: Vec<Label>,
}

/// The rules of a table; nothing where it is bad or too long.
pub fn table(bytes: &[u8]) -> Option<Vec<Rule>> {
    // The table is at most 1,048,576 bytes.
    if bytes.len() > 1_048_576 {
        return None;
    }
    let mut rules = Vec::new();
    // Lines end at LF or at the end.
    for line in bytes.split(|&b| b == b'\n').filter_map(content) {
        // Another line makes the table bad.
        rules.push(rule(&line)?);
    }
    Some(rules)
}

/// What is read of a line; nothing where it is skipped.
pub fn content(line: &[u8]) -> Option<Vec<u8>> {
    // A line is read up to its first space, tab or CR.
    let line: Vec<u8> = line.iter().copied().take_while(|b| !b" \t\r".contains(b)).collect();
    // Nothing left, or a line beginning `//`, is skipped.
    (!line.is_empty() && !line.starts_with(b"//")).then_some(line)
}

/// Otherwise it is a rule: a host; or `*`; or `*.` and a host; or `!` and a host of two labels or more.
pub fn rule(line: &[u8]) -> Option<Rule> {
    // A rule's name without `!` has at most 253 bytes.
    let name = line.strip_prefix(b"!").unwrap_or(line);
    if name.len() > 253 {
        return None;
    }
    let star = b"*".to_vec();
    if line == b"*" {
        return Some(Rule { kind: Kind::Star, labels: vec![star] });
    }
    if let Some(rest) = line.strip_prefix(b"*.") {
        let labels = [vec![star], host(rest)?].concat();
        return Some(Rule { kind: Kind::Wildcard, labels });
    }
    if let Some(rest) = line.strip_prefix(b"!") {
        let labels = host(rest).filter(|labels| labels.len() >= 2)?;
        return Some(Rule { kind: Kind::Exception, labels });
    }
    Some(Rule { kind: Kind::Plain, labels: host(line)? })
}

impl Rule {
    /// A rule matches a host that has at least as many labels and whose last labels equal the rule's, `*`
    /// equalling any one label.
    pub fn matches(&self, host: &[Label]) -> bool {
        // Hosts and labels compare without regard to ASCII case.
        let equal = |(r, h): (&Label, &Label)| r == b"*" || r.eq_ignore_ascii_case(h);
        host.len() >= self.labels.len() && self.labels.iter().rev().zip(host.iter().rev()).all(equal)
    }
}

/// The rule that prevails for a host.
fn prevailing(mut rules: Vec<Rule>, host: &[Label]) -> Rule {
    rules.retain(|rule| rule.matches(host));
    // Of matching rules an exception (`!`) prevails, else the one with most labels; among exceptions, most
    // labels.
    rules.sort_by_key(|rule| (rule.kind == Kind::Exception, rule.labels.len()));
    // With no match the rule `*` prevails.
    let default = Rule { kind: Kind::Default, labels: vec![b"*".to_vec()] };
    rules.pop().unwrap_or(default)
}

/// A host's private label with the rule it comes from, or why it has none.
#[derive(Clone, Debug, PartialEq, Eq, PartialOrd, Ord)]
pub enum Answer {
    Label(Vec<u8>, Kind),
    Malformed,
    BadTable,
    Address,
    EqualsSuffix(Kind),
}

impl Answer {
    /// The label call returns the part of the caller's host that is its private label, letters as given. It
    /// returns an empty part where the host is malformed, the table is bad or too long, or no label exists.
    pub fn part(&self) -> &[u8] {
        match self {
            Answer::Label(label, _) => label,
            _ => b"",
        }
    }
}

/// The answer for a host under a table.
pub fn private_label(host_bytes: &[u8], table_bytes: &[u8]) -> Answer {
    let Some(labels) = host(host_bytes) else {
        return Answer::Malformed;
    };
    let Some(rules) = table(table_bytes) else {
        return Answer::BadTable;
    };
    // So has a host whose last label is all digits (an address).
    if labels[labels.len() - 1].iter().all(u8::is_ascii_digit) {
        return Answer::Address;
    }
    let rule = prevailing(rules, &labels);
    // The public suffix is the labels matched, less the leftmost one under an exception.
    let suffix = rule.labels.len() - usize::from(rule.kind == Kind::Exception);
    // A host equal to its public suffix has none.
    if labels.len() == suffix {
        return Answer::EqualsSuffix(rule.kind);
    }
    // The private label is the public suffix and one label more.
    Answer::Label(labels[labels.len() - suffix - 1..].join(&b'.'), rule.kind)
}
