//! Tests of how a body is read: each case through the decision, cleaning and tally.

mod bounds;
mod cases;
mod json;
mod samples;
