//! The calls over lattices that are compared and frozen: their inputs, and what they must answer.
pub mod expected;
pub mod others;
pub mod sizes;
pub mod units;
