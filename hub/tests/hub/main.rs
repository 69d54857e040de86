//! Tests of the hub's calls into the proved library: against document 01 by hand, against a model of it,
//! and against other people's programs and published tests.

mod boundary;
mod case;
mod check;
mod cleaning;
mod decision;
mod hand;
mod head;
mod hidden;
mod label;
mod list;
mod make;
mod model;
mod owners;
mod published;
mod random;
mod stack;
mod whole;
