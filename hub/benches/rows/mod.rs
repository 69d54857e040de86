//! Which rows of a benchmark are printed, and how a time is written.

use std::env;

/// What the command line names, or all where it names none.
pub struct Wanted(Vec<String>);

impl Wanted {
    /// The command line may name these.
    pub fn new(names: &[&str]) -> Wanted {
        // Cargo itself passes `--bench`.
        let named: Vec<String> = env::args().skip(1).filter(|argument| !argument.starts_with('-')).collect();
        let unknown = named.iter().find(|named| !names.contains(&named.as_str()));
        assert_eq!(unknown, None, "it is none of {names:?}");
        Wanted(named)
    }

    /// Whether the name is wanted of these names.
    pub fn has(&self, of: &[&str], name: &str) -> bool {
        let of = |named: &&String| of.contains(&named.as_str());
        self.0.iter().any(|named| named == name) || !self.0.iter().any(|named| of(&named))
    }
}

/// A time, three digits of it at least.
pub fn microseconds(nanoseconds: f64) -> String {
    let decimals = if nanoseconds < 10_000.0 { 2 } else { usize::from(nanoseconds < 100_000.0) };
    format!("{:.decimals$}", nanoseconds / 1000.0)
}
