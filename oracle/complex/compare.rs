//! Compares our library's from_pentachorons with the Rust's and its refusals with their table, then its check_built with the definition.
mod compare_checks;
#[allow(dead_code)]
#[path = "../../bindings/rust/src/ffi.rs"]
mod ffi;
mod guarded;
mod guarded_complex;
mod guards;

use calls::complexes::KINDS;
use calls::differences::{self, Differences};
use calls::end::end;
use calls::expected::{self, Answer, Lent};
use calls::lattice::lattice;
use calls::random::Random;
use calls::{Call, LISTS, as_rust, defects, rooms, table};
use phyz_regge::foliation::foliated_hypercubic;
use std::collections::HashSet;
use std::process::ExitCode;
use std::time::Instant;

/// How many calls have a single defect; those with several share as many.
const FLAWED: usize = 900;

/// How much longer than its room a list is, by kinds of rooms.
const ROOMS: [(&str, fn(&mut Random) -> usize); 4] = [
    ("exact", |_| 0),
    ("one longer", |_| 1),
    ("exact, or longer by up to 100", |random| random.pick(&[0, 0, 1, 2, 7, 100])),
    ("longer by 500 to 1,500", |random| 500 + random.below(1_001)),
];

/// What the lists and the counts hold before a call.
fn before(call: &Call) -> Lent {
    let word = |list: usize, place: usize| (place as u32 + 1).wrapping_mul(0x9e37_79b9) ^ (list as u32 + 1) << 27;
    let list = |list: usize| (0..call.lengths[list]).map(|place| word(list, place)).collect();
    Lent { lists: std::array::from_fn(list), counts: [1, 2, 3, 4, 5].map(|count| 0x00c0_ffee_0000 + count) }
}

/// What was compared and what differed.
#[derive(Default)]
struct Report {
    calls: u64,
    by_number: [u64; 6],
    by_rooms: [u64; ROOMS.len()],
    differences: Differences,
}

impl Report {
    /// Makes a call and compares all that it left.
    fn call(&mut self, call: &Call) {
        let before = before(call);
        let (ours, mut differences) = guarded::answer(call, &before);
        let expected = expected::answer(call, before);
        self.calls += 1;
        self.by_number[expected.number as usize] += 1;
        if ours != expected {
            differences.extend(describe(&ours, &expected));
        }
        if !differences.is_empty() {
            self.differences.add(&format!("{}\n  {}", shown(call), differences.join("\n  ")));
        }
    }

    /// Complexes of every kind, each with rooms of any kind.
    fn complexes(&mut self) {
        for (seed, kind) in KINDS.iter().enumerate() {
            let mut random = Random::of_round(seed as u64);
            for number in 0..kind.count {
                let complex = (kind.draw)(&mut random, number);
                let rooms = random.below(ROOMS.len());
                self.by_rooms[rooms] += 1;
                self.call(&Call::new(complex, || ROOMS[rooms].1(&mut random)));
            }
            println!("calls, {}: {}", kind.name, kind.count);
        }
    }

    /// Calls with every choice of defects.
    fn defects(&mut self) {
        for (seed, defects) in defects::choices().enumerate() {
            let mut random = Random::of_round(100 + seed as u64);
            let earlier = self.by_number;
            for number in 0..FLAWED / defects.len() {
                self.call(&defects::call(&mut random, number, &defects));
            }
            let counts: Vec<u64> = self.by_number.iter().zip(earlier).map(|(now, earlier)| now - earlier).collect();
            println!("calls with defects {defects:?}: {}", refusals(&counts));
        }
    }

    /// Our lattice beside the Rust's: as sets, since the Rust walks a hash set.
    fn lattices(&mut self) {
        for (n_t, n_s) in [(2, 2), (3, 2), (2, 3), (3, 3), (5, 4)] {
            let ours = as_rust(&lattice(n_t, n_s).1);
            let rust = foliated_hypercubic(n_t, n_s).complex.pents;
            if ours.len() != rust.len() || HashSet::<_>::from_iter(ours) != HashSet::<_>::from_iter(rust) {
                self.differences.add(&format!("lattice {n_t}, {n_s}: not the Rust's pentachorons"));
            }
        }
    }

    /// Prints the counts.
    fn print(&self) {
        for ((name, _), count) in ROOMS.iter().zip(self.by_rooms) {
            println!("answered calls, rooms {name}: {count}");
        }
        println!("{} calls: {} answered, {}", self.calls, self.by_number[0], refusals(&self.by_number));
        table::calls("from_pentachorons", self.calls, self.by_number[0], self.differences.0);
    }
}

/// How many calls were to be refused with each number.
fn refusals(counts: &[u64]) -> String {
    let shown = |number: usize| format!("{} refused with {number}", counts[number]);
    let numbers = [1, 2, 5, 3, 4].into_iter().filter(|&number| counts[number] != 0);
    numbers.map(shown).collect::<Vec<_>>().join(", ")
}

/// A call in short.
fn shown(call: &Call) -> String {
    let Call { n_vertices, pents, lengths } = call;
    let rooms = rooms(pents.len());
    let surplus: [i64; 10] = std::array::from_fn(|list| lengths[list] as i64 - rooms[list] as i64);
    let (first, count) = (&pents[..pents.len().min(30)], pents.len());
    format!("n_vertices {n_vertices}, pents {first:?} of {count} numbers, lists beyond their rooms by {surplus:?}")
}

/// How our answer differs from the one expected.
fn describe(ours: &Answer, expected: &Answer) -> Vec<String> {
    let mut differences = Vec::new();
    let mut differ = |name: &str, ours: String, expected: String| {
        if ours != expected {
            differences.push(format!("{name}: ours {ours}, expected {expected}"));
        }
    };
    differ("number", ours.number.to_string(), expected.number.to_string());
    differ("place", ours.place.to_string(), expected.place.to_string());
    differ("counts", format!("{:?}", ours.lent.counts), format!("{:?}", expected.lent.counts));
    for (list, (ours, expected)) in LISTS.iter().zip(ours.lent.lists.iter().zip(&expected.lent.lists)) {
        differences.extend(differences::of_lists(list.name, ours, expected));
    }
    differences
}

/// Compares everything; the exit status is 1 on any difference.
fn main() -> ExitCode {
    let begin = Instant::now();
    let mut report = Report::default();
    report.lattices();
    report.complexes();
    report.defects();
    report.print();
    let differences = report.differences.0 + compare_checks::compare();
    end(differences, 0, begin)
}
