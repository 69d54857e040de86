//! Tests of the decision and of the fetch location.

mod bounds;
mod cases;
mod fetched;
mod generated;
