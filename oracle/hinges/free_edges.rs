//! The free edges of a call, lawful and not.
use crate::local::Free;
use crate::simplexes::step;
use calls::complexes::shuffle;
use calls::random::Random;
use phyz_regge::complex::SimplicialComplex;

/// How many free edges a list has at most.
const MOST: usize = 100;

/// A kind of free edges: its name, and how those of a complex that has edges are drawn.
struct Kind {
    name: &'static str,
    draw: fn(&mut Random, &SimplicialComplex) -> Vec<usize>,
}

const KINDS: [Kind; 12] = [
    Kind { name: "none", draw: |_, _| vec![] },
    Kind { name: "one", draw: |random, complex| vec![random.below(complex.edges.len())] },
    Kind { name: "a triangle's", draw: triangle },
    Kind { name: "a pentachoron's", draw: pentachoron },
    Kind { name: "two of a pentachoron without a common vertex", draw: opposite },
    Kind { name: "a vertex's", draw: vertex },
    Kind { name: "far apart", draw: far_apart },
    Kind { name: "up to 10", draw: |random, complex| some(random, complex, 10) },
    Kind { name: "up to 100", draw: |random, complex| some(random, complex, MOST) },
    Kind { name: "the first ones, ascending", draw: |_, complex| (0..complex.edges.len().min(MOST)).collect() },
    Kind { name: "the first and the last", draw: |_, complex| vec![complex.edges.len() - 1, 0] },
    Kind { name: "the last ones, descending", draw: |_, complex| (0..complex.edges.len()).rev().take(MOST).collect() },
];

/// How many kinds there are.
pub const COUNT: usize = KINDS.len();

/// Free edges of a complex, the kinds in turn, with a step of any kind; and the kind's name.
pub fn drawn(random: &mut Random, number: usize, complex: &SimplicialComplex) -> (&'static str, Free) {
    let kind = &KINDS[number % COUNT];
    let mut edges = if complex.edges.is_empty() { vec![] } else { (kind.draw)(random, complex) };
    edges.truncate(MOST);
    let edges = edges.into_iter().map(|edge| edge as u32).collect();
    (kind.name, Free { edges, fd_eps: step(random, number) })
}

/// The numbers in any order.
fn shuffled(random: &mut Random, mut edges: Vec<usize>) -> Vec<usize> {
    shuffle(random, &mut edges);
    edges
}

/// A triangle's edges.
fn triangle(random: &mut Random, complex: &SimplicialComplex) -> Vec<usize> {
    let tri = random.below(complex.triangles.len());
    shuffled(random, complex.tri_edge_indices(tri).to_vec())
}

/// A pentachoron's edges.
fn pentachoron(random: &mut Random, complex: &SimplicialComplex) -> Vec<usize> {
    let pent = random.below(complex.pents.len());
    shuffled(random, complex.pent_edge_indices(pent).to_vec())
}

/// Two edges of a pentachoron that share no vertex.
fn opposite(random: &mut Random, complex: &SimplicialComplex) -> Vec<usize> {
    let mut pent = complex.pents[random.below(complex.pents.len())];
    shuffle(random, &mut pent);
    let edge = |a: usize, b: usize| complex.edge_index[&[a.min(b), a.max(b)]];
    vec![edge(pent[0], pent[1]), edge(pent[2], pent[3])]
}

/// The edges at a vertex.
fn vertex(random: &mut Random, complex: &SimplicialComplex) -> Vec<usize> {
    let vertex = complex.edges[random.below(complex.edges.len())][random.below(2)];
    let edges = (0..complex.edges.len()).filter(|&edge| complex.edges[edge].contains(&vertex)).collect();
    shuffled(random, edges)
}

/// Edges of which no two are in one pentachoron.
fn far_apart(random: &mut Random, complex: &SimplicialComplex) -> Vec<usize> {
    let mut taken = vec![false; complex.pents.len()];
    let mut apart = shuffled(random, (0..complex.edges.len()).collect());
    apart.retain(|&edge| {
        let pents = &complex.edge_to_pents[edge];
        let free = pents.iter().all(|&pent| !taken[pent]);
        pents.iter().for_each(|&pent| taken[pent] = true);
        free
    });
    apart
}

/// Up to so many edges.
fn some(random: &mut Random, complex: &SimplicialComplex, most: usize) -> Vec<usize> {
    let count = 1 + random.below(most.min(complex.edges.len()));
    let mut edges = shuffled(random, (0..complex.edges.len()).collect());
    edges.truncate(count);
    edges
}

/// A number that is no edge's: the next ones, the largest, any.
pub fn outside(random: &mut Random, edges: usize) -> u32 {
    let (count, any) = (edges as u32, random.word() as u32);
    random.pick(&[count, count, count + 1, count | 1 << 16, u32::MAX, any.max(count)])
}

/// Puts such a number at any place.
pub fn put_outside(random: &mut Random, edges: usize, free: &mut Vec<u32>) {
    let number = outside(random, edges);
    free.insert(random.below(free.len() + 1), number);
}

/// Puts a number of the list there again, at any place, or one of so many edges twice.
pub fn put_twice(random: &mut Random, edges: usize, free: &mut Vec<u32>) {
    if free.is_empty() {
        free.push(random.below(edges.max(1)) as u32);
    }
    let again = random.pick(free);
    let end = free.len();
    let place = random.pick(&[0, end, random.0 as usize % (end + 1)]);
    free.insert(place, again);
}
