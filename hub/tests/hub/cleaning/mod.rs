//! Tests of cleaning and tally.

mod cases;
mod deeper;
mod generated;
mod published;
