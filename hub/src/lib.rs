//! The watch hub's calls into the proved library `facets`.
//!
//! Every call here is safe: it takes byte slices and numbers and hands them to one exported call of the
//! library, whose result and effects are proved equal to the definitions of document 01, as the requests
//! change it. `ffi` is the only module with unsafe code; each further module holds the calls of one subject. A
//! number that these do not have, come from the library, is a panic.
#![deny(unsafe_code, unsafe_op_in_unsafe_fn, missing_docs)]

mod cleaning;
mod decision;
mod fetch;
#[allow(unsafe_code)]
mod ffi;
mod head;
mod label;
mod refusal;
mod tally;

pub use cleaning::clean;
pub use decision::{decide, decision_code, decision_code_with_place, Answer, Inputs};
pub use fetch::fetch_location;
pub use head::{read_head, Head};
pub use label::private_label;
pub use refusal::Refusal;
pub use tally::{tally, Counts};
