//! Compares our library's hinges, action, gradients, Hessian and length signs with the altered Rust's answers and their refusals with the table.
#[macro_use]
#[allow(dead_code)]
#[path = "../../bindings/rust/src/ffi.rs"]
mod ffi;

mod both;
mod case;
#[allow(dead_code)]
#[path = "../checked.rs"]
mod checked;
mod compare_local;
#[path = "../complex/guarded_complex.rs"]
mod guarded_complex;
#[path = "../complex/guards.rs"]
mod guards;
mod incidence;
mod report;
mod report_local;
#[path = "../foliation/tally.rs"]
mod tally;

use calls::checks::{Check, longer};
use calls::complexes::{KINDS, built, small};
use calls::damages::{DAMAGES, Damage};
use calls::end::end;
use calls::lattice::{flat_lengths, lattice};
use calls::random::Random;
use calls::{as_rust, table};
use case::Case;
use compare_local::CompareLocal;
use hinges::expected;
use hinges::facts::Facts;
use hinges::simplexes::SORTS;
use hinges::{lengths, sizes};
use phyz_regge::complex::SimplicialComplex;
use report::{Distances, Report};
use std::process::ExitCode;
use std::time::Instant;

/// One in so many complexes of each kind is compared, and with lengths of so many kinds.
const SHARE: usize = 4;
const ROUNDS: usize = 3;

/// Up to how many triangles a complex is asked for each of them, and how many of a larger one.
const EVERY: usize = 40;
const SOME: usize = 6;

/// How many complexes are damaged in every way, and how many get lengths of a wrong number.
const DAMAGED: usize = 400;
const WRONG: usize = 600;

/// How many complexes get every choice of defects of a call over free edges.
const COMBINED: usize = 120;

/// How many lists with two lengths of the largest size are drawn for one pentachoron.
const LARGEST: usize = 600;

/// How many lists with an area or derivatives at the limit are drawn for one pentachoron and for small complexes.
const LIMITS: usize = 400;

/// How many lists and steps are drawn with which a Jacobian tells the two rules of a dihedral apart.
const APART: usize = 100;

/// How many lists of signs are drawn.
const SIGNS: usize = 2_000;

/// The names of lattices with flat lengths, and of the smallest with any.
const LATTICES: &str = "lattices, flat and moved";
const SMALLEST: &str = "smallest lattices";

/// How far flat lengths are moved at most; a lattice of more than so many vertices gets the first two.
const MOVED: [f64; 4] = [0.01, 0.0, 0.4, 1e-13];
const LARGE: usize = 100;

/// What was compared, what occurred, how far the unaltered Rust is from us, and how many complexes, lists of lengths and damages of each kind there were.
#[derive(Default)]
struct Compare {
    report: Report,
    local: CompareLocal,
    facts: Facts,
    lattice_distances: Distances,
    other_distances: Distances,
    complexes: usize,
    lengths: Vec<(String, usize)>,
    damages: Vec<(String, usize)>,
}

/// A length of an output that must have so many places, mostly enough.
fn any_room(random: &mut Random, places: usize) -> usize {
    let (less, more) = (places.saturating_sub(1), places + 2 + random.below(100));
    random.pick(&[places, places, places, places + 1, more, less, less, 0])
}

/// Triangle numbers from the count on: the next ones, the largest, any.
fn outside(random: &mut Random, triangles: usize) -> [u32; 5] {
    let (count, any) = (triangles as u32, random.word() as u32);
    [count, count + 1, count | 1 << 16, u32::MAX, any.max(count)]
}

/// The numbers of all triangles, or of the first, the last and some.
fn inside(random: &mut Random, triangles: usize, every: bool) -> Vec<u32> {
    match triangles {
        0 => vec![],
        _ if every && triangles <= EVERY => (0..triangles as u32).collect(),
        _ => {
            let some = (2..SOME).map(|_| random.below(triangles) as u32);
            [0, triangles as u32 - 1].into_iter().chain(some).collect()
        }
    }
}

/// Counts one of a name.
fn count(counts: &mut Vec<(String, usize)>, name: &str) {
    match counts.iter_mut().find(|(known, _)| known == name) {
        Some((_, count)) => *count += 1,
        None => counts.push((name.to_string(), 1)),
    }
}

/// Prints a line for each name and one for all.
fn print(name: &str, counts: &[(String, usize)]) {
    counts.iter().for_each(|(kind, count)| println!("{name}, {kind}: {count}"));
    println!("{name}: {}", counts.iter().map(|(_, count)| count).sum::<usize>());
}

impl Compare {
    /// Every function on a built complex with as many lengths as edges.
    fn answered(&mut self, random: &mut Random, kind: &str, complex: &SimplicialComplex, lengths: &[f64], every: bool) {
        let check = longer(random, Check::new(complex));
        let mut case = Case::new(&check, lengths, lengths.len());
        self.facts.add(complex, lengths, case.expected.as_ref().ok().unwrap());
        let distances = if kind == LATTICES { &mut self.lattice_distances } else { &mut self.other_distances };
        let grad = self.report.exact(kind, &mut case, &expected::unaltered(complex, lengths), distances);
        self.local.answered(kind, &mut case, lengths, &grad, every, kind == LATTICES);
        if kind == SMALLEST {
            self.local.all_edges(kind, &mut case, lengths, &grad, 1e-6);
        }
        let triangles = complex.triangles.len();
        let outside = outside(random, triangles).into_iter().skip(if every { 0 } else { 3 });
        for tri in inside(random, triangles, every).into_iter().chain(outside) {
            self.report.hinge(kind, &mut case, tri);
        }
        self.outputs(random, &mut case);
        self.report.signs(kind, lengths);
    }

    /// Deficits and gradient with outputs of any lengths.
    fn outputs(&mut self, random: &mut Random, case: &mut Case) {
        let [triangles, edges] = case.sizes();
        let rooms = [any_room(random, triangles), any_room(random, triangles)];
        self.report.table("outputs of any length", case, rooms);
        let room = any_room(random, edges);
        self.report.gradient("outputs of any length", case, room);
    }

    /// Complexes of every kind with lengths of every kind.
    fn complexes(&mut self) {
        let mut drawn = 0;
        for (seed, kind) in KINDS.iter().enumerate() {
            let mut random = Random::of_round(1_000 + seed as u64);
            for number in (0..kind.count).step_by(SHARE) {
                let complex = built(&mut random, kind, number);
                self.complexes += 1;
                for round in 0..ROUNDS {
                    let (name, lengths) = lengths::drawn(&mut random, drawn, &complex);
                    drawn += 1;
                    count(&mut self.lengths, &name);
                    self.answered(&mut random, kind.name, &complex, &lengths, round == 0);
                }
            }
        }
    }

    /// Every lattice with flat lengths that are moved at random.
    fn lattices(&mut self) {
        let mut random = Random::of_round(1_100);
        for size in sizes::lawful() {
            let (n_vertices, pents) = lattice(size.0, size.1);
            let complex = SimplicialComplex::from_pentachorons(n_vertices, &as_rust(&pents));
            self.complexes += 1;
            let some = if n_vertices > LARGE { 2 } else { MOVED.len() };
            for &moved in &MOVED[..some] {
                let (spacing, dt) = random.pick(&[(1.0, 0.5), (1.0, 1.0), (0.1, 0.3)]);
                let flat = flat_lengths(size, &complex, spacing, dt);
                let lengths: Vec<f64> = flat.into_iter().map(|length| length + random.between(-moved, moved)).collect();
                count(&mut self.lengths, &format!("flat, moved by up to {moved:e}"));
                self.answered(&mut random, LATTICES, &complex, &lengths, false);
            }
        }
    }

    /// The smallest lattices with lengths of every kind.
    fn small_lattices(&mut self) {
        let mut random = Random::of_round(1_101);
        for (n_t, n_s) in [(2, 2), (3, 2)] {
            let (n_vertices, pents) = lattice(n_t, n_s);
            let complex = SimplicialComplex::from_pentachorons(n_vertices, &as_rust(&pents));
            self.complexes += 1;
            for number in 0..lengths::COUNT {
                let (name, lengths) = lengths::drawn(&mut random, number, &complex);
                count(&mut self.lengths, &name);
                self.answered(&mut random, SMALLEST, &complex, &lengths, false);
            }
        }
    }

    /// One pentachoron with two lengths of the largest size: few of these have deficits that are numbers.
    fn largest(&mut self) {
        let mut random = Random::of_round(1_102);
        let complex = SimplicialComplex::from_pentachorons(5, &[[0, 1, 2, 3, 4]]);
        self.complexes += 1;
        for _ in 0..LARGEST {
            let lengths = lengths::two_largest(&mut random, &complex);
            count(&mut self.lengths, "one pentachoron, two edges of the largest size");
            self.answered(&mut random, "one pentachoron, lengths of the largest size", &complex, &lengths, false);
        }
    }

    /// One pentachoron and small complexes with a triangle's area, or the derivatives of areas by an edge, at the limit.
    fn limits(&mut self) {
        let mut random = Random::of_round(1_103);
        let one = SimplicialComplex::from_pentachorons(5, &[[0, 1, 2, 3, 4]]);
        for number in 0..LIMITS {
            let any = self.small(&mut random, number);
            for complex in [&one, &any].into_iter().filter(|complex| !complex.edges.is_empty()) {
                let draw = [lengths::triangle_at_limit, lengths::derivatives_at_limit][number % 2];
                let lengths = draw(&mut random, complex);
                count(&mut self.lengths, "points, an area or derivatives at 1e-30");
                self.answered(&mut random, "an area or derivatives at 1e-30", complex, &lengths, false);
            }
        }
    }

    /// One pentachoron with lengths and steps that tell the two rules of a dihedral apart.
    fn rules_apart(&mut self) {
        let mut random = Random::of_round(1_104);
        let complex = SimplicialComplex::from_pentachorons(5, &[[0, 1, 2, 3, 4]]);
        let check = Check::new(&complex);
        self.complexes += 1;
        for _ in 0..APART {
            let (lengths, step) = lengths::rules_apart(&mut random, &complex);
            count(&mut self.lengths, "one pentachoron, a step from the limit of a product");
            let mut case = Case::new(&check, &lengths, lengths.len());
            let grad = self.report.gradient("a step from the limit of a product", &mut case, lengths.len());
            self.local.all_edges("a step from the limit of a product", &mut case, &lengths, &grad, step);
        }
    }

    /// Every function but the signs, with a triangle, free edges of a complex and outputs that are lawful, or that aren't.
    fn refused(
        &mut self,
        random: &mut Random,
        kind: &str,
        case: &mut Case,
        complex: &SimplicialComplex,
        lengths: &[f64],
        lawful: bool,
    ) {
        let [triangles, edges] = case.sizes();
        let short = |random: &mut Random, places: usize| random.pick(&[0, places.saturating_sub(1)]);
        let (mut rooms, mut room, mut tri) = ([triangles; 2], edges, random.below(triangles.max(1)) as u32);
        let mut kind = kind.to_string();
        if !lawful {
            kind += ", and an output or triangle";
            rooms[random.below(2)] = short(random, triangles);
            room = short(random, edges);
            let outside = outside(random, triangles);
            tri = random.pick(&outside);
        }
        self.report.table(&kind, case, rooms);
        self.report.hinge(&kind, case, tri);
        self.report.action(&kind, case);
        self.report.gradient(&kind, case, room);
        self.local.refused(&kind, case, complex, lengths, lawful);
    }

    /// A small complex of any kind.
    fn small(&mut self, random: &mut Random, number: usize) -> SimplicialComplex {
        self.complexes += 1;
        small(random, number)
    }

    /// Built complexes with a wrong number of lengths: one too many, one too few, none, twice as many, any; the right ones stand there too.
    fn wrong_lengths(&mut self) {
        let mut random = Random::of_round(1_200);
        for number in 0..WRONG {
            let complex = self.small(&mut random, number);
            let check = longer(&mut random, Check::new(&complex));
            let (_, lengths) = lengths::drawn(&mut random, number, &complex);
            let edges = lengths.len();
            let more = [&lengths[..], &lengths, &[0.0]].concat();
            let any = random.below(2 * edges + 2);
            for lent in [edges + 1, edges.saturating_sub(1), 0, 2 * edges, any] {
                let mut case = Case::new(&check, &more, lent);
                for lawful in [true, false] {
                    self.refused(&mut random, "lengths of a wrong number", &mut case, &complex, &more[..lent], lawful);
                }
            }
        }
    }

    /// Every kind of damage to counts and lists, with as many lengths as are counted, as there are edges, and with a wrong number.
    fn damaged(&mut self) {
        let mut random = Random::of_round(1_300);
        for number in 0..DAMAGED {
            let complex = self.small(&mut random, number);
            let (_, lengths) = lengths::drawn(&mut random, number, &complex);
            let edges = lengths.len();
            let more = [&lengths[..], &lengths, &[0.0; 12]].concat();
            for Damage { name, turns, make } in DAMAGES.iter().filter(|damage| !damage.name.starts_with("outputs")) {
                let mut check = longer(&mut random, Check::new(&complex));
                let turn = random.below(*turns);
                make(&mut random, turn, &complex, &mut check);
                let counted = check.counts[2].min(more.len());
                let wrong = random.pick(&[edges + 1, edges.saturating_sub(1), 0]);
                count(&mut self.damages, name);
                for (kind, lent) in [("damages", counted), ("damages", edges), ("damages, and lengths", wrong)] {
                    let mut case = Case::new(&check, &more, lent);
                    let lawful = random.below(2) == 0;
                    self.refused(&mut random, kind, &mut case, &complex, &more[..lent], lawful);
                }
            }
        }
    }

    /// Every choice of defects of a call over free edges, and lists longer than the edges.
    fn combined(&mut self) {
        let mut random = Random::of_round(1_500);
        for number in 0..COMBINED {
            let complex = self.small(&mut random, number);
            self.local.combined(&complex, number);
        }
        let (n_vertices, pents) = lattice(2, 2);
        let complex = SimplicialComplex::from_pentachorons(n_vertices, &as_rust(&pents));
        self.local.long_lists(&complex, &flat_lengths((2, 2), &complex, 1.0, 0.5));
    }

    /// Lists of lengths of every sort, by themselves and together.
    fn signs(&mut self) {
        let mut random = Random::of_round(1_400);
        self.report.signs("none", &[]);
        for number in 0..SIGNS {
            let (count, sort) = (random.below(40), SORTS[number % SORTS.len()]);
            let one: Vec<f64> = (0..count).map(|_| sort(&mut random)).collect();
            self.report.signs("one sort", &one);
            let all: Vec<f64> = (0..count).map(|_| random.pick(&SORTS)(&mut random)).collect();
            self.report.signs("all sorts", &all);
        }
    }

    /// Prints the report; how many calls differ, and how many facts didn't occur.
    fn print(&self) -> [u64; 2] {
        print("lengths", &self.lengths);
        print("damages", &self.damages);
        println!("complexes: {}", self.complexes);
        let differences = self.report.print();
        println!("distance of the unaltered Rust from us, no pass mark:");
        self.lattice_distances.print(LATTICES, table::LATTICES);
        self.other_distances.print("others", table::OTHERS);
        let missing = self.facts.print();
        let local = self.local.print(LATTICES);
        [differences + local[0], missing + local[1]]
    }
}

/// Compares everything; the exit status is 1 on any difference, and where a fact that must occur doesn't.
fn main() -> ExitCode {
    let begin = Instant::now();
    let mut compare = Compare::default();
    compare.signs();
    compare.wrong_lengths();
    compare.damaged();
    compare.combined();
    compare.small_lattices();
    compare.largest();
    compare.limits();
    compare.rules_apart();
    compare.complexes();
    compare.lattices();
    let [differences, missing] = compare.print();
    end(differences, missing, begin)
}
