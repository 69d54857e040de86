//! A model of document 01 as the requests change it, written sentence by sentence from their text and from
//! nothing else.
//!
//! It is naive on purpose: it splits, copies and sorts where the library walks the bytes in place, and reads
//! JSON with serde_json. A refusal is its number.

pub mod cleaning;
pub mod decision;
pub mod head;
pub mod identifier;
pub mod json;
pub mod list;
pub mod record;
pub mod suffix;

/// A refusal's number.
pub type Refused = u16;
