//! Compares our library's lattices, edge types and flat lengths with the Rust's in 01's order and its refusals with their table.
mod compare_built;
mod compare_edges;
mod compare_lists;
#[allow(dead_code)]
#[path = "../../bindings/rust/src/ffi.rs"]
mod ffi;
#[path = "../complex/guarded.rs"]
mod guarded;
#[path = "../complex/guarded_complex.rs"]
mod guarded_complex;
#[path = "../complex/guards.rs"]
mod guards;
mod tally;
mod unaltered;

use calls::end::end;
use compare_edges::Edges;
use compare_lists::Lists;
use lattices::expected::Lattices;
use std::process::ExitCode;
use std::time::Instant;
use tally::Tally;
use unaltered::Distance;

/// Compares everything; the exit status is 1 on any difference.
fn main() -> ExitCode {
    let begin = Instant::now();
    let lattices = &Lattices::new();
    let mut lists = Lists { lattices, tally: Tally::default() };
    lists.compare();
    let mut edges = Edges { lattices, types: Tally::default(), lengths: Tally::default() };
    edges.compare();
    let mut distance = Distance::default();
    distance.measure(lattices);
    distance.print();
    let tallies = [&lists.tally, &edges.types, &edges.lengths];
    let differences: u64 = tallies.iter().map(|tally| tally.differences.0).sum();
    end(differences, 0, begin)
}
