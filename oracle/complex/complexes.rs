//! The vertex counts and pentachorons of calls that are answered.
use crate::lattice::lattice;
use crate::random::Random;
use crate::{Complex, Pent, as_rust};
use phyz_regge::complex::SimplicialComplex;

/// The most pentachorons of a call.
pub const MOST_PENTS: usize = 8_192;

/// The vertex counts, few and many.
pub const VERTICES: [usize; 10] = [5, 6, 7, 8, 12, 60, 300, 1_000, 4_095, 4_096];

/// A kind of complex: how many are compared, and how the one of a number is drawn.
pub struct Kind {
    pub name: &'static str,
    pub count: usize,
    pub draw: fn(&mut Random, usize) -> Complex,
}

pub const KINDS: [Kind; 14] = [
    Kind { name: "scattered", count: 3_000, draw: |random, number| few(random, number, scattered) },
    Kind { name: "sorted", count: 1_500, draw: |random, number| few(random, number, sorted) },
    Kind { name: "repeated", count: 1_500, draw: |random, number| few(random, number, repeated) },
    Kind { name: "strips", count: 1_500, draw: |random, number| few(random, number, strip) },
    Kind { name: "cones", count: 1_500, draw: |random, number| few(random, number, cone) },
    Kind { name: "neighbours", count: 1_500, draw: |random, number| few(random, number, neighbours) },
    Kind { name: "last vertices", count: 1_000, draw: |random, number| few(random, number, last_vertices) },
    Kind { name: "every pentachoron of 5 to 8 vertices", count: 200, draw: |random, _| every(random) },
    Kind { name: "runs of a lattice", count: 400, draw: |random, _| run_of_lattice(random) },
    Kind { name: "whole lattices", count: 6, draw: |_, number| whole_lattice(number) },
    Kind { name: "no pentachorons", count: 400, draw: |random, number| (vertices_for_none(random, number), vec![]) },
    Kind { name: "one pentachoron", count: 800, draw: |random, number| shaped(random, number, 1, scattered) },
    Kind { name: "hundreds", count: 200, draw: hundreds },
    Kind { name: "8,192 pentachorons", count: 16, draw: most },
];

/// Up to how many pentachorons a complex is small, and the kinds that have small ones.
const SMALL: usize = 60;
const SMALL_KINDS: [usize; 11] = [0, 1, 2, 3, 4, 5, 6, 7, 8, 10, 11];

/// The Rust's complex of the number of a kind.
pub fn built(random: &mut Random, kind: &Kind, number: usize) -> SimplicialComplex {
    let (n_vertices, pents) = (kind.draw)(random, number);
    SimplicialComplex::from_pentachorons(n_vertices, &as_rust(&pents))
}

/// The Rust's complex of the number of any kind, a small one.
pub fn small(random: &mut Random, number: usize) -> SimplicialComplex {
    loop {
        let kind = random.pick(&SMALL_KINDS);
        let complex = built(random, &KINDS[kind], number);
        if complex.pents.len() <= SMALL {
            return complex;
        }
    }
}

/// A way to draw so many pentachorons over so many vertices.
type Shape = fn(&mut Random, usize, usize) -> Vec<Pent>;

const SHAPES: [Shape; 7] = [scattered, sorted, repeated, strip, cone, neighbours, last_vertices];

/// So many pentachorons of a shape, the vertex counts in turn.
fn shaped(random: &mut Random, number: usize, count: usize, shape: Shape) -> Complex {
    let n_vertices = VERTICES[number % VERTICES.len()];
    (n_vertices, shape(random, n_vertices, count))
}

/// Up to 40 pentachorons.
fn few(random: &mut Random, number: usize, shape: Shape) -> Complex {
    let count = random.below(41);
    shaped(random, number, count, shape)
}

/// Some hundreds of pentachorons.
fn hundreds(random: &mut Random, number: usize) -> Complex {
    let (count, shape) = (100 + random.below(900), random.pick(&SHAPES));
    shaped(random, number, count, shape)
}

/// As many pentachorons as a call may have: scattered over each vertex count, then of the other shapes over the larger counts.
fn most(random: &mut Random, number: usize) -> Complex {
    match number {
        0..10 => shaped(random, number, MOST_PENTS, scattered),
        _ => shaped(random, 19 - number, MOST_PENTS, SHAPES[number - 9]),
    }
}

/// A vertex count for a call without pentachorons: those at the limits, then any.
fn vertices_for_none(random: &mut Random, number: usize) -> usize {
    *[1, 2, 3, 4, 5, 4_095, 4_096].get(number).unwrap_or(&(1 + random.below(4_096)))
}

/// Puts a list into any order.
pub fn shuffle<T>(random: &mut Random, list: &mut [T]) {
    for end in (1..list.len()).rev() {
        list.swap(end, random.below(end + 1));
    }
}

/// A vertex that is none of these.
fn other(random: &mut Random, n_vertices: usize, vertices: &[u32]) -> u32 {
    loop {
        let vertex = random.below(n_vertices) as u32;
        if !vertices.contains(&vertex) {
            return vertex;
        }
    }
}

/// A pentachoron whose first vertices are these.
fn pent_from(random: &mut Random, n_vertices: usize, first: &[u32]) -> Pent {
    let mut pent = [0; 5];
    pent[..first.len()].copy_from_slice(first);
    for place in first.len()..5 {
        pent[place] = other(random, n_vertices, &pent[..place]);
    }
    pent
}

/// Any pentachorons, their vertices in any order.
pub fn scattered(random: &mut Random, n_vertices: usize, count: usize) -> Vec<Pent> {
    (0..count).map(|_| pent_from(random, n_vertices, &[])).collect()
}

/// Sorted pentachorons, the list ascending, descending or in any order.
fn sorted(random: &mut Random, n_vertices: usize, count: usize) -> Vec<Pent> {
    let mut pents = scattered(random, n_vertices, count);
    pents.iter_mut().for_each(|pent| pent.sort_unstable());
    match random.below(3) {
        0 => pents.sort_unstable(),
        1 => pents.sort_unstable_by(|a, b| b.cmp(a)),
        _ => (),
    }
    pents
}

/// One to four pentachorons again and again, their vertices in any order.
fn repeated(random: &mut Random, n_vertices: usize, count: usize) -> Vec<Pent> {
    let different = 1 + random.below(4);
    let pool = scattered(random, n_vertices, different);
    let again = |_| {
        let mut pent = random.pick(&pool);
        shuffle(random, &mut pent);
        pent
    };
    (0..count).map(again).collect()
}

/// Five successive vertices each, one further every time, from any vertex and round to the first; upwards or downwards.
fn strip(random: &mut Random, n_vertices: usize, count: usize) -> Vec<Pent> {
    let start = random.below(n_vertices);
    let vertex = |first: usize, k: usize| ((start + first + k) % n_vertices) as u32;
    let mut pents: Vec<Pent> = (0..count).map(|first| std::array::from_fn(|k| vertex(first, k))).collect();
    if random.below(2) == 0 {
        pents.reverse();
        pents.iter_mut().for_each(|pent| pent.reverse());
    }
    pents
}

/// Pentachorons around a common vertex, edge, triangle or tet.
fn cone(random: &mut Random, n_vertices: usize, count: usize) -> Vec<Pent> {
    let common = 1 + random.below(4);
    let apex = pent_from(random, n_vertices, &[]);
    let around = |_| {
        let mut pent = pent_from(random, n_vertices, &apex[..common]);
        shuffle(random, &mut pent);
        pent
    };
    (0..count).map(around).collect()
}

/// Each pentachoron has four vertices of the one before it.
fn neighbours(random: &mut Random, n_vertices: usize, count: usize) -> Vec<Pent> {
    let mut pent = pent_from(random, n_vertices, &[]);
    let next = |_| {
        shuffle(random, &mut pent);
        pent = pent_from(random, n_vertices, &pent[..4]);
        pent
    };
    (0..count).map(next).collect()
}

/// Pentachorons of the last eight vertices.
fn last_vertices(random: &mut Random, n_vertices: usize, count: usize) -> Vec<Pent> {
    let last = n_vertices.min(8);
    let pents = scattered(random, last, count);
    pents.into_iter().map(|pent| pent.map(|vertex| vertex + (n_vertices - last) as u32)).collect()
}

/// Every pentachoron of five to eight vertices, in any order.
fn every(random: &mut Random) -> Complex {
    let n_vertices = 5 + random.below(4);
    let subsets = (0u32..1 << n_vertices).filter(|subset| subset.count_ones() == 5);
    let vertices = |subset: u32| (0..n_vertices as u32).filter(move |vertex| subset >> vertex & 1 == 1);
    let mut pents: Vec<Pent> = subsets.map(|subset| vertices(subset).collect::<Vec<_>>().try_into().unwrap()).collect();
    shuffle(random, &mut pents);
    (n_vertices, pents)
}

/// Up to 60 successive pentachorons of a lattice.
fn run_of_lattice(random: &mut Random) -> Complex {
    let (n_t, n_s) = random.pick(&[(2, 2), (3, 2), (2, 3), (3, 3)]);
    let (n_vertices, pents) = lattice(n_t, n_s);
    let start = random.below(pents.len());
    let end = pents.len().min(start + 1 + random.below(60));
    (n_vertices, pents[start..end].to_vec())
}

/// All pentachorons of a lattice.
fn whole_lattice(number: usize) -> Complex {
    let (n_t, n_s) = [(2, 2), (3, 2), (2, 3), (3, 3), (8, 2), (5, 4)][number];
    lattice(n_t, n_s)
}
