//! Compares our library's check_built with the definition that `calls::checks` computes by the Rust.
use crate::guarded;
use calls::checks::{self, Check, OUTPUTS, longer};
use calls::complexes::{KINDS, Kind, MOST_PENTS, scattered};
use calls::damages::{DAMAGES, Damage};
use calls::differences::{self, Differences};
use calls::random::Random;
use calls::{Complex, as_rust, table};
use phyz_regge::complex::SimplicialComplex;
use std::fmt::Write;

/// How many small complexes are damaged in every way.
const SMALL: usize = 2_000;

/// The complexes of the kinds of which so few are built are large, or every one of their kind counts.
const FEW: usize = 200;

/// How many complexes of such a kind are damaged at most, and how often each in every way.
const MOST: usize = 8;
const LARGE: usize = 2;

/// How many calls were to be answered with each number.
#[derive(Clone, Copy, Default)]
struct Tally {
    answered: u64,
    short: u64,
    not_built: u64,
}

impl Tally {
    /// Counts an answer.
    fn add(&mut self, number: u32) {
        match number {
            0 => self.answered += 1,
            5 => self.short += 1,
            _ => self.not_built += 1,
        }
    }
}

impl std::fmt::Display for Tally {
    fn fmt(&self, text: &mut std::fmt::Formatter) -> std::fmt::Result {
        let Tally { answered, short, not_built } = self;
        write!(text, "{answered} answered, {short} refused with 5, {not_built} refused with 7")
    }
}

/// What was compared and what differed.
#[derive(Default)]
struct Report {
    by_damage: [Tally; DAMAGES.len()],
    too_many: Tally,
    differences: Differences,
}

/// The Rust's complex.
fn built((n_vertices, pents): &Complex) -> SimplicialComplex {
    SimplicialComplex::from_pentachorons(*n_vertices, &as_rust(pents))
}

/// A call in short.
fn shown(check: &Check) -> String {
    let Check { counts, lists, lengths, outputs } = check;
    let first = &lists[0][..lists[0].len().min(30)];
    let mut text = format!("counts {counts:?}, pents {first:?}");
    write!(text, ", lists of {lengths:?} places, outputs of {outputs:?}").unwrap();
    text
}

impl Report {
    /// Makes a call and compares all that it left; the number that was expected.
    fn call(&mut self, name: &str, check: &Check) -> u32 {
        let word =
            |output: usize, place: usize| (place as u32 + 1).wrapping_mul(0x85eb_ca6b) ^ (output as u32 + 1) << 29;
        let before = [0, 1].map(|output| (0..check.outputs[output]).map(|place| word(output, place)).collect());
        let (ours, mut differences) = guarded::checked(check, &before);
        let expected = checks::answer(check, before);
        if ours.number != expected.number {
            differences.push(format!("number: ours {}, expected {}", ours.number, expected.number));
        }
        for ((name, ours), expected) in OUTPUTS.iter().zip(&ours.outputs).zip(&expected.outputs) {
            differences.extend(differences::of_lists(name, ours, expected));
        }
        if !differences.is_empty() {
            self.differences.add(&format!("damage: {name}, {}\n  {}", shown(check), differences.join("\n  ")));
        }
        expected.number
    }

    /// Every kind of damage to a complex.
    fn damages(&mut self, random: &mut Random, complex: &SimplicialComplex) {
        for (kind, Damage { name, turns, make }) in DAMAGES.iter().enumerate() {
            let mut check = longer(random, Check::new(complex));
            let turn = random.below(*turns);
            make(random, turn, complex, &mut check);
            let expected = self.call(name, &check);
            self.by_damage[kind].add(expected);
        }
    }

    /// Small complexes of the kinds of which many are built.
    fn small(&mut self) {
        let kinds: Vec<&Kind> = KINDS.iter().filter(|kind| kind.count > FEW).collect();
        let mut random = Random::of_round(400);
        for number in 0..SMALL {
            let complex = (kinds[number % kinds.len()].draw)(&mut random, number / kinds.len());
            self.damages(&mut random, &built(&complex));
        }
    }

    /// Lattices, every pentachoron of few vertices, hundreds, 8,192.
    fn large(&mut self) {
        let mut random = Random::of_round(401);
        for kind in KINDS.iter().filter(|kind| kind.count <= FEW) {
            let step = kind.count.div_ceil(MOST);
            for number in (0..kind.count).step_by(step) {
                let complex = built(&(kind.draw)(&mut random, number));
                (0..LARGE).for_each(|_| self.damages(&mut random, &complex));
            }
        }
    }

    /// More pentachorons than are lawful, all else as the Rust builds it.
    fn too_many(&mut self) {
        let mut random = Random::of_round(402);
        for (n_vertices, count) in [(5, 8_193), (12, 8_193), (4_096, 8_193), (6, 8_194), (7, 13_108), (8, 16_384)] {
            assert!(count > MOST_PENTS);
            let pents = scattered(&mut random, n_vertices, count);
            let expected = self.call("too many", &longer(&mut random, Check::new(&built(&(n_vertices, pents)))));
            self.too_many.add(expected);
        }
    }

    /// Prints the counts.
    fn print(&self) {
        let mut all = self.too_many;
        for (Damage { name, .. }, tally) in DAMAGES.iter().zip(self.by_damage) {
            println!("checks, damage: {name}: {tally}");
            all.answered += tally.answered;
            all.short += tally.short;
            all.not_built += tally.not_built;
        }
        println!("checks, more than {MOST_PENTS} pentachorons: {}", self.too_many);
        let checks = all.answered + all.short + all.not_built;
        println!("{checks} checks: {all}");
        table::calls("check_built", checks, all.answered, self.differences.0);
    }
}

/// Compares all checks; the number of differences.
pub fn compare() -> u64 {
    let mut report = Report::default();
    report.small();
    report.large();
    report.too_many();
    report.print();
    report.differences.0
}
