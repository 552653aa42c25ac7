//! The squared lengths of a complex's edges.
use crate::facts::dihedrals;
use crate::simplexes::{self, SORTS, between, signature};
use altered::lorentzian::{all_lorentzian_dihedrals, triangle_area_sq_lorentzian};
use calls::complexes::shuffle;
use calls::random::Random;
use phyz_regge::complex::SimplicialComplex;

/// Where the Rust's gradient no longer skips a triangle.
pub const AREA_LIMIT: f64 = 1e-30;

/// The lengths of P2 in 01-scope.md.
pub const P2: [f64; 10] = [-1.0, 1.0, 1.0, 1.0, 0.0, 0.0, 0.0, 2.0, 2.0, 2.0];

/// How often an area at the limit is tried for.
const TRIES: usize = 60;

/// A kind of lengths: its name, and how those of a complex are drawn.
struct Kind {
    name: &'static str,
    draw: fn(&mut Random, &SimplicialComplex) -> Vec<f64>,
}

const KINDS: [Kind; 15] = [
    Kind { name: "points of Minkowski space", draw: minkowski },
    Kind { name: "points of Euclidean space", draw: euclidean },
    Kind { name: "points of a small lattice", draw: small_lattice },
    Kind { name: "points of a line, a plane or a hyperplane", draw: degenerate },
    Kind { name: "whole", draw: whole },
    Kind { name: "zeros of either sign", draw: |random, complex| each(random, complex, Random::zero) },
    Kind { name: "all equal", draw: equal },
    Kind { name: "an area at 1e-30", draw: at_area },
    Kind { name: "squared areas about to underflow or overflow", draw: at_squares },
    Kind { name: "about zero, two edges of the largest size", draw: two_largest },
    Kind { name: "of one sort", draw: one_sort },
    Kind { name: "points, one edge of another sort", draw: |random, complex| some_other(random, complex, 1) },
    Kind { name: "points, some edges of another sort", draw: |random, complex| some_other(random, complex, 5) },
    Kind { name: "small whole, one edge of another sort", draw: one_in_whole },
    Kind { name: "of all sorts", draw: mixed },
];

/// How many kinds there are.
pub const COUNT: usize = KINDS.len() + simplexes::KINDS.len();

/// The lengths of a complex, the kinds in turn: those above, then each kind of simplex; and the kind's name.
pub fn drawn(random: &mut Random, number: usize, complex: &SimplicialComplex) -> (String, Vec<f64>) {
    let kind = number % COUNT;
    match KINDS.get(kind) {
        Some(kind) => (kind.name.to_string(), (kind.draw)(random, complex)),
        None => {
            let kind = &simplexes::KINDS[kind - KINDS.len()];
            (format!("simplexes, {}", kind.name), of_simplexes(random, complex, kind))
        }
    }
}

/// Every edge's length drawn alike.
fn each(random: &mut Random, complex: &SimplicialComplex, draw: impl Fn(&mut Random) -> f64) -> Vec<f64> {
    complex.edges.iter().map(|_| draw(random)).collect()
}

/// A simplex of the kind for each pentachoron, in any order, a later one upon an earlier.
fn of_simplexes(random: &mut Random, complex: &SimplicialComplex, kind: &simplexes::Kind) -> Vec<f64> {
    let mut lengths = vec![0.0; complex.edges.len()];
    let mut order: Vec<usize> = (0..complex.pents.len()).collect();
    shuffle(random, &mut order);
    for pent in order {
        let number = random.below(1_000);
        let simplex = (kind.draw)(random, number);
        complex.pent_edge_indices(pent).into_iter().zip(simplex).for_each(|(edge, length)| lengths[edge] = length);
    }
    lengths
}

/// The squared lengths between points with these weights, one drawn for each vertex.
fn between_points(
    random: &mut Random,
    complex: &SimplicialComplex,
    weights: [f64; 4],
    point: impl Fn(&mut Random) -> [f64; 4],
) -> Vec<f64> {
    let points: Vec<[f64; 4]> = (0..complex.n_vertices).map(|_| point(random)).collect();
    complex.edges.iter().map(|[a, b]| between(&points[*a], &points[*b], weights)).collect()
}

/// Points of a cube of any size, with these weights.
fn in_cube(random: &mut Random, complex: &SimplicialComplex, weights: [f64; 4]) -> Vec<f64> {
    let size = random.spread(-20, 20);
    between_points(random, complex, weights, |random| [(); 4].map(|()| random.between(-size, size)))
}

/// Points of Minkowski space, of either signature.
fn minkowski(random: &mut Random, complex: &SimplicialComplex) -> Vec<f64> {
    let weights = signature(random);
    in_cube(random, complex, weights)
}

/// Points of Euclidean space, or the negative of their lengths.
fn euclidean(random: &mut Random, complex: &SimplicialComplex) -> Vec<f64> {
    let weights = [random.sign(); 4];
    in_cube(random, complex, weights)
}

/// Whole points of Minkowski space: many edges are null, many simplexes degenerate.
fn small_lattice(random: &mut Random, complex: &SimplicialComplex) -> Vec<f64> {
    let (weights, limit) = (signature(random), random.pick(&[1, 2, 5]));
    between_points(random, complex, weights, |random| [(); 4].map(|()| random.whole(limit)))
}

/// Points of which only the first one to three coordinates differ.
fn degenerate(random: &mut Random, complex: &SimplicialComplex) -> Vec<f64> {
    let (weights, dimensions, whole) = (signature(random), 1 + random.below(3), random.below(2) == 0);
    let coordinate = |random: &mut Random| if whole { random.whole(9) } else { random.between(-2.0, 2.0) };
    let point = |random: &mut Random| {
        let mut point = [0.0; 4];
        point[..dimensions].fill_with(|| coordinate(random));
        point
    };
    between_points(random, complex, weights, point)
}

/// Whole lengths up to a limit.
fn whole(random: &mut Random, complex: &SimplicialComplex) -> Vec<f64> {
    let limit = random.pick(&[1, 2, 5, 100, 32_768]);
    each(random, complex, |random| random.whole(limit))
}

/// All edges of one length, a power of ten or any.
fn equal(random: &mut Random, complex: &SimplicialComplex) -> Vec<f64> {
    let (power, sign) = (random.pick(&[-30.0, -15.0, -10.0, -1.0, 0.0, 0.0, 1.0, 20.0]), random.sign());
    let any = 10_f64.powf(random.between(-160.0, 150.0));
    let length = sign * random.pick(&[10_f64.powf(power), any]);
    each(random, complex, |_| length)
}

/// The absolute squared area of a triangle.
fn squared_area(complex: &SimplicialComplex, tri: usize, lengths: &[f64]) -> f64 {
    let [s01, s02, s12] = complex.tri_edge_lengths(tri, lengths);
    triangle_area_sq_lorentzian(s01, s02, s12).abs()
}

/// The absolute area of a triangle.
pub fn area(complex: &SimplicialComplex, tri: usize, lengths: &[f64]) -> f64 {
    squared_area(complex, tri, lengths).sqrt()
}

/// The lengths with these edges scaled about so, some ulps more or less: as it is asked for, if it can be found.
fn scaled(
    random: &mut Random,
    lengths: &[f64],
    edges: &[usize],
    scale: f64,
    asked: impl Fn(&[f64]) -> bool,
) -> Vec<f64> {
    let mut tries = (0..TRIES).map(|_| {
        let (scale, mut scaled) = (random.nudged(scale, 8), lengths.to_vec());
        edges.iter().for_each(|&edge| scaled[edge] *= scale);
        scaled
    });
    let first = tries.next().unwrap();
    tries.find(|lengths| asked(lengths)).unwrap_or(first)
}

/// Points scaled so that the area of a triangle is at the limit, or a neighbour of it.
pub fn at_area(random: &mut Random, complex: &SimplicialComplex) -> Vec<f64> {
    let lengths = minkowski(random, complex);
    if lengths.is_empty() {
        return lengths;
    }
    let tri = random.below(complex.triangles.len());
    let scale = AREA_LIMIT / area(complex, tri, &lengths);
    let target = random.nudged(AREA_LIMIT, 1);
    let all: Vec<usize> = (0..lengths.len()).collect();
    scaled(random, &lengths, &all, scale, |lengths| area(complex, tri, lengths) == target)
}

/// Points, but for one triangle, whose squared area is that of the limit, or a neighbour of it.
pub fn triangle_at_limit(random: &mut Random, complex: &SimplicialComplex) -> Vec<f64> {
    let (lengths, tri) = (minkowski(random, complex), random.below(complex.triangles.len()));
    let (edges, scale) = (complex.tri_edge_indices(tri), AREA_LIMIT / area(complex, tri, &lengths));
    let target = random.nudged(AREA_LIMIT * AREA_LIMIT, 3);
    scaled(random, &lengths, &edges, scale, |lengths| squared_area(complex, tri, lengths) == target)
}

/// Points, but for the edges at both ends of one, such that the derivatives of areas by that one are at the limit or neighbours of it.
pub fn derivatives_at_limit(random: &mut Random, complex: &SimplicialComplex) -> Vec<f64> {
    let mut lengths = minkowski(random, complex);
    let (edge, sign) = (random.below(lengths.len()), random.sign());
    let [a, b] = complex.edges[edge];
    for (length, ends) in lengths.iter_mut().zip(&complex.edges) {
        if ends.contains(&a) {
            *length = sign;
        } else if ends.contains(&b) {
            *length = -sign;
        }
    }
    lengths[edge] = random.sign() * 8.0 * random.nudged(AREA_LIMIT, 1);
    lengths
}

/// Lengths of one pentachoron, and a step with which the Jacobian comes to a simplex where the two rules give other dihedrals.
pub fn rules_apart(random: &mut Random, complex: &SimplicialComplex) -> (Vec<f64>, f64) {
    let kind = simplexes::KINDS.iter().find(|kind| kind.name == "product at 1e-60").unwrap();
    loop {
        let mut simplex = (kind.draw)(random, 0);
        let other = all_lorentzian_dihedrals(&simplex);
        let dihedrals = dihedrals(complex, 0, &simplex);
        if dihedrals.into_iter().zip(other).any(|((_, value, _), (other, _))| value != other) {
            let edge = random.below(10);
            simplex[edge] /= 2.0;
            return (simplex.to_vec(), simplex[edge]);
        }
    }
}

/// Lengths of one size whose products are subnormal, or about to overflow.
fn at_squares(random: &mut Random, complex: &SimplicialComplex) -> Vec<f64> {
    let size = if random.below(4) == 0 { random.spread(508, 513) } else { random.spread(-536, -505) };
    each(random, complex, |random| size * random.between(-1.0, 1.0))
}

/// Zeros and subnormal lengths, but for two edges of a triangle, of which one is about the largest number and the other the least.
pub fn two_largest(random: &mut Random, complex: &SimplicialComplex) -> Vec<f64> {
    let mut lengths = each(random, complex, |random| random.pick(&[0.0, -0.0, -1e-310, 5e-324]));
    if !lengths.is_empty() {
        let mut edges = complex.tri_edge_indices(random.below(complex.triangles.len()));
        shuffle(random, &mut edges);
        lengths[edges[0]] = random.between(0.4, 1.0) * f64::MAX;
        lengths[edges[1]] = random.between(0.4, 1.0) * f64::MIN;
    }
    lengths
}

/// All edges of one sort.
fn one_sort(random: &mut Random, complex: &SimplicialComplex) -> Vec<f64> {
    let sort = random.pick(&SORTS);
    each(random, complex, sort)
}

/// Up to so many lengths of another sort.
fn put_other(random: &mut Random, mut lengths: Vec<f64>, most: usize) -> Vec<f64> {
    let sort = random.pick(&SORTS);
    if !lengths.is_empty() {
        for _ in 0..1 + random.below(most) {
            let edge = random.below(lengths.len());
            lengths[edge] = sort(random);
        }
    }
    lengths
}

/// Points of either space with up to so many lengths of another sort.
fn some_other(random: &mut Random, complex: &SimplicialComplex, most: usize) -> Vec<f64> {
    let space = random.pick(&[minkowski, euclidean, small_lattice, degenerate]);
    let lengths = space(random, complex);
    put_other(random, lengths, most)
}

/// Small whole lengths, many of them zero, and one that is of any sort.
fn one_in_whole(random: &mut Random, complex: &SimplicialComplex) -> Vec<f64> {
    let lengths = each(random, complex, |random| random.pick(&[0.0, 0.0, 0.0, 1.0, -1.0]));
    put_other(random, lengths, 1)
}

/// Lengths of several sorts.
fn mixed(random: &mut Random, complex: &SimplicialComplex) -> Vec<f64> {
    each(random, complex, |random| random.pick(&SORTS)(random))
}
