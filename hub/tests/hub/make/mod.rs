//! Inputs made by repeatable random choices.

pub mod bad_head;
pub mod case;
pub mod deeper;
pub mod head;
pub mod identifier;
pub mod json;
pub mod list;
pub mod record;
pub mod table;
