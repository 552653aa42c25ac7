//! The lines that oracle/compare gathers for its table; those of one operation are added up.
use crate::distance::Distance;

/// The inputs of a distance: lattices with flat lengths, moved at random or not, and all others.
pub const LATTICES: &str = "lattices";
pub const OTHERS: &str = "others";

/// Says how many calls of an operation were compared, how many of them were to be answered, and how many differ.
pub fn calls(operation: &str, calls: u64, answered: u64, differences: u64) {
    println!("table: calls {operation} {calls} {answered} {differences}");
}

/// Says how far the unaltered Rust is from us on such inputs of an operation.
pub fn distance(operation: &str, inputs: &str, distance: &Distance) {
    let Distance { absolute, ulps, apart, kinds, .. } = distance;
    println!("table: distance {operation} {inputs} {absolute:e} {ulps} {apart} {kinds}");
}
