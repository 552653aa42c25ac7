//! Compares the Rust crate of bindings/rust with the altered Rust: what it builds, what it answers, and its refusals with the table.
mod complexes;
mod floats;
mod over;
mod programs;
#[path = "../fdlibm/reference.rs"]
mod reference;
mod report;
mod simplices;

use calls::as_rust;
use calls::complexes::KINDS;
use calls::end::end;
use calls::random::Random;
use hinges::{lengths, sizes};
use over::Over;
use phyz_regge::complex::SimplicialComplex;
use report::Report;
use std::process::ExitCode;
use std::time::Instant;

/// One in so many complexes of each kind is compared.
const SHARE: usize = 10;

/// How far a lattice's flat squared length is moved at most.
const MOVED: f64 = 0.01;

/// Complexes of every kind, with lengths of the kinds in turn.
fn all_kinds(report: &mut Report) {
    for (seed, kind) in KINDS.iter().enumerate() {
        let mut random = Random::of_round(2_300 + seed as u64);
        for number in (0..kind.count).step_by(SHARE) {
            let (n_vertices, pents) = (kind.draw)(&mut random, number);
            let pents = as_rust(&pents);
            let rust = SimplicialComplex::from_pentachorons(n_vertices, &pents);
            let Some(ours) = complexes::build(report, n_vertices, &pents, Ok(&rust)) else { continue };
            let (_, lengths) = lengths::drawn(&mut random, number / SHARE + seed, &rust);
            Over { ours: &ours, rust: &rust, lengths }.compare(report, &mut random, number / SHARE + seed);
        }
        println!("complexes, {}: {}", kind.name, kind.count.div_ceil(SHARE));
    }
}

/// The lattices with flat lengths that are moved at random.
fn lattices(report: &mut Report) {
    let mut random = Random::of_round(2_400);
    for (number, size) in sizes::lawful().into_iter().enumerate() {
        let (lattice, rust) = complexes::of_lattice(report, size);
        let flat = cjapthumi::foliation::flat_minkowski_sq_lengths(&lattice, 1.0, 0.5);
        let lengths = flat.into_iter().map(|length| length + random.between(-MOVED, MOVED)).collect();
        Over { ours: &lattice.complex, rust: &rust, lengths }.compare(report, &mut random, number);
    }
}

/// Compares everything; the exit status is 1 on any difference.
fn main() -> ExitCode {
    let begin = Instant::now();
    let mut report = Report::default();
    floats::compare(&mut report);
    simplices::compare(&mut report);
    complexes::defects(&mut report);
    complexes::unlawful(&mut report);
    all_kinds(&mut report);
    lattices(&mut report);
    let differences = report.print();
    end(differences, 0, begin)
}
