//! Tests of the label call.

mod bounds;
mod cases;
mod generated;
mod published;

use crate::model::suffix as model;
use facets_hub::private_label;

/// Asserts that library and model both answer `expected`, which is empty where there is no label.
fn check(host: impl AsRef<[u8]>, table: impl AsRef<[u8]>, expected: impl AsRef<[u8]>) {
    let (host, table, expected) = (host.as_ref(), table.as_ref(), expected.as_ref());
    let inputs = || {
        let shown = &table[..table.len().min(600)];
        format!("host \"{}\", table \"{}\"", host.escape_ascii(), shown.escape_ascii())
    };
    let answer = private_label(host, table);
    assert_eq!(
        answer.escape_ascii().to_string(),
        expected.escape_ascii().to_string(),
        "the library, {}",
        inputs()
    );
    let answer = model::private_label(host, table);
    assert_eq!(
        answer.part().escape_ascii().to_string(),
        expected.escape_ascii().to_string(),
        "the model, {}",
        inputs()
    );
}
