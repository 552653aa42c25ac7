//! Compares our library's retouch with the altered Rust's answers, its refusals with the table and each step with demand 3.
#[macro_use]
#[allow(dead_code)]
#[path = "../../bindings/rust/src/ffi.rs"]
mod ffi;

#[allow(dead_code)]
#[path = "../checked.rs"]
mod checked;
mod expected;
mod facts;
#[path = "../complex/guarded_complex.rs"]
mod guarded_complex;
#[path = "../complex/guards.rs"]
mod guards;
#[path = "../hinges/incidence.rs"]
mod incidence;
mod report;
mod step;
mod steps;
mod tables;
#[path = "../foliation/tally.rs"]
mod tally;

use calls::as_rust;
use calls::checks::{Check, longer};
use calls::complexes::{KINDS, built, small};
use calls::damages::{DAMAGES, Damage};
use calls::end::end;
use calls::lattice::{flat_lengths, lattice};
use calls::random::Random;
use expected::{Change, Table};
use hinges::free_edges::outside;
use hinges::simplexes::SORTS;
use hinges::{lengths, sizes};
use phyz_regge::complex::SimplicialComplex;
use report::{Case, Report};
use std::process::ExitCode;
use std::time::Instant;
use steps::Steps;

/// How many retouches follow each other on one complex, length list and table.
const STEPS: usize = 100;

/// One in so many complexes of each kind is compared.
const SHARE: usize = 12;

/// One in so many steps follows upon a record that was changed, in every other sequence.
const SPOILED: usize = 8;

/// How many complexes are damaged in every way, and how many get every choice of defects.
const DAMAGED: usize = 300;
const COMBINED: usize = 600;

/// The refusals in the order of the checks.
const REFUSALS: [u32; 4] = [7, 8, 9, 5];

/// How far flat lengths are moved at most.
const MOVED: f64 = 0.01;

/// What was compared, and how many complexes, sequences and steps upon a changed record there were.
#[derive(Default)]
struct Compare {
    report: Report,
    complexes: usize,
    sequences: usize,
    spoiled: usize,
}

/// Takes places from the deficits, the kinds or both, one, some or all, where there are triangles.
fn shorten(random: &mut Random, table: &mut Table, triangles: usize) {
    let (which, any) = (random.below(3), random.below(triangles.max(1)));
    let room = random.pick(&[triangles.saturating_sub(1), triangles.saturating_sub(1), any, 0]);
    if which != 0 {
        table.deficits.truncate(room);
    }
    if which != 1 {
        table.kinds.truncate(room);
    }
}

/// A change and a table, with an edge outside and a table that is short, or without.
fn defective(
    random: &mut Random,
    complex: &SimplicialComplex,
    lengths: &[f64],
    [is_outside, is_short]: [bool; 2],
) -> (Change, Table) {
    let edge = random.below(lengths.len().max(1)) as u32;
    let edge = if is_outside { outside(random, lengths.len()) } else { edge };
    let change = Change { edge, length: random.pick(&SORTS)(random) };
    let number = random.below(tables::COUNT);
    let mut table = tables::drawn(random, number, complex, lengths);
    if is_short {
        shorten(random, &mut table, complex.triangles.len());
    }
    (change, table)
}

impl Compare {
    /// Successive retouches of one complex, length list and table, and one that is refused; tables and lengths of the kinds in turn.
    fn sequence(&mut self, random: &mut Random, complex: &SimplicialComplex, lengths: &[f64], is_lattice: bool) {
        let number = self.sequences;
        self.sequences += 1;
        let check = longer(random, Check::new(complex));
        let table = tables::drawn(random, number / steps::COUNT, complex, lengths);
        let (name, mut steps) = Steps::new(number);
        let is_spoiled = number / (steps::COUNT * tables::COUNT) % 2 == 1;
        let kind = format!("{}, {name}", if is_lattice { "lattices" } else { "complexes" });
        let mut case = Case::new(&check, lengths, table);
        for _ in 0..if lengths.is_empty() { 0 } else { STEPS } {
            let change = steps.next(random, complex, &case.lengths);
            if is_spoiled && random.below(SPOILED) == 0 {
                let tri = random.below(complex.triangles.len());
                tables::spoil(random, &mut case.table, tri);
                self.spoiled += 1;
            }
            self.report.retouch(&kind, &mut case, change, is_lattice && name == "lengths moved");
        }
        let change = Change { edge: outside(random, lengths.len()), length: 1.0 };
        self.report.retouch("after a sequence, no such edge", &mut case, change, false);
    }

    /// Complexes of every kind with lengths of every kind.
    fn complexes(&mut self) {
        let mut drawn = 0;
        for (seed, kind) in KINDS.iter().enumerate() {
            let mut random = Random::of_round(3_000 + seed as u64);
            for number in (0..kind.count).step_by(SHARE) {
                let complex = built(&mut random, kind, number);
                self.complexes += 1;
                let (_, lengths) = lengths::drawn(&mut random, drawn, &complex);
                drawn += 1;
                self.sequence(&mut random, &complex, &lengths, false);
            }
        }
    }

    /// Every lattice with flat lengths that are moved at random; the smallest with tables and new lengths of every kind.
    fn lattices(&mut self) {
        let mut random = Random::of_round(3_100);
        for size in sizes::lawful() {
            let (n_vertices, pents) = lattice(size.0, size.1);
            let complex = SimplicialComplex::from_pentachorons(n_vertices, &as_rust(&pents));
            self.complexes += 1;
            for _ in 0..if n_vertices <= 24 { steps::COUNT * tables::COUNT } else { 1 } {
                let flat = flat_lengths(size, &complex, 1.0, 0.5);
                let lengths: Vec<f64> = flat.into_iter().map(|length| length + random.between(-MOVED, MOVED)).collect();
                self.sequence(&mut random, &complex, &lengths, true);
            }
        }
    }

    /// Every kind of damage to counts and lists, with as many lengths as are counted, as there are edges, and with a wrong number; half of the calls with a table that is short or an edge outside.
    fn damaged(&mut self) {
        let mut random = Random::of_round(3_200);
        for number in 0..DAMAGED {
            let complex = small(&mut random, number);
            self.complexes += 1;
            let (_, lengths) = lengths::drawn(&mut random, number, &complex);
            let edges = lengths.len();
            let more = [&lengths[..], &lengths, &[0.0; 12]].concat();
            for Damage { turns, make, .. } in DAMAGES.iter().filter(|damage| !damage.name.starts_with("outputs")) {
                let mut check = longer(&mut random, Check::new(&complex));
                let turn = random.below(*turns);
                make(&mut random, turn, &complex, &mut check);
                let counted = check.counts[2].min(more.len());
                let wrong = random.pick(&[edges + 1, edges.saturating_sub(1), 0]);
                for lent in [counted, edges, wrong] {
                    let defects = [(); 2].map(|()| random.below(4) == 0);
                    let (change, table) = defective(&mut random, &complex, &lengths, defects);
                    let mut case = Case::new(&check, &more[..lent], table);
                    self.report.retouch("damages", &mut case, change, false);
                }
            }
        }
    }

    /// Every choice of the four defects: the earliest of the table's row must be given.
    fn combined(&mut self) {
        let mut random = Random::of_round(3_300);
        for number in 0..COMBINED {
            let complex = small(&mut random, number);
            self.complexes += 1;
            let (_, lengths) = lengths::drawn(&mut random, number, &complex);
            let (edges, more) = (lengths.len(), [&lengths[..], &lengths, &[0.0]].concat());
            for choice in 0..1 << REFUSALS.len() {
                let [damaged, wrong, outside, short] = std::array::from_fn(|defect| choice >> defect & 1 == 1);
                let mut check = longer(&mut random, Check::new(&complex));
                check.counts[1 + random.below(4)] += usize::from(damaged);
                let other = random.pick(&[0, edges + 1, 2 * edges, edges.saturating_sub(1)]);
                let lent = if wrong { other } else { edges };
                let (change, table) = defective(&mut random, &complex, &lengths, [outside, short]);
                let mut case = Case::new(&check, &more[..lent], table);
                let due = (0..4).find(|defect| choice >> defect & 1 == 1).map_or(0, |defect| REFUSALS[defect]);
                let number = expected::number(&case.accepted, change.edge, &case.table);
                assert!(edges == 0 || number == due, "the table gives another number for the defects {choice:04b}");
                self.report.retouch("defects combined", &mut case, change, false);
            }
        }
    }

    /// Prints the report; how many calls differ, and how many facts didn't occur.
    fn print(&self) -> [u64; 2] {
        let Compare { complexes, sequences, spoiled, .. } = self;
        println!("complexes: {complexes}; sequences of {STEPS}: {sequences}; steps upon a changed record: {spoiled}");
        self.report.print()
    }
}

/// Compares everything; the exit status is 1 on any difference, and where a fact that must occur doesn't.
fn main() -> ExitCode {
    let begin = Instant::now();
    let mut compare = Compare::default();
    compare.combined();
    compare.damaged();
    compare.complexes();
    compare.lattices();
    let [differences, missing] = compare.print();
    end(differences, missing, begin)
}
