//! The same move in plain Rust, written by itself, and random cases to compare the two on.
//!
//! Tests and measurements use this. It shares no code with the proved library.

pub mod cases;
pub mod moving;
