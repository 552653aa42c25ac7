//! The simplexes, as ten signed squared lengths, and the steps of the Jacobian.
use crate::random::Random;
use altered::geometry::cofactor_6x6;
use altered::lorentzian::cm_matrix_signed;

pub type Simplex = [f64; 10];

/// The vertices of each edge.
pub const EDGES: [(usize, usize); 10] =
    [(0, 1), (0, 2), (0, 3), (0, 4), (1, 2), (1, 3), (1, 4), (2, 3), (2, 4), (3, 4)];

/// Where the Rust takes a ratio as a boost's and no longer as an angle's.
pub const RATIO_LIMIT: f64 = 1.0 + 1e-12;

/// Where the Rust takes a product of cofactors as zero.
pub const PRODUCT_LIMIT: f64 = 1e-60;

/// A kind of simplex: how many are compared, and how the one of a number is drawn.
pub struct Kind {
    pub name: &'static str,
    pub count: usize,
    pub draw: fn(&mut Random, usize) -> Simplex,
}

pub const KINDS: [Kind; 17] = [
    Kind { name: "whole lengths up to 32,768", count: 14_000, draw: |random, _| whole(random) },
    Kind { name: "uniform", count: 8_000, draw: |random, _| uniform(random) },
    Kind { name: "points of Minkowski space", count: 14_000, draw: |random, _| minkowski(random) },
    Kind { name: "points of Euclidean space", count: 6_000, draw: |random, _| euclidean(random) },
    Kind { name: "null edges", count: 8_000, draw: |random, _| null(random) },
    Kind { name: "degenerate", count: 10_000, draw: |random, _| degenerate(random) },
    Kind { name: "ratio at 1 or 1 + 1e-12", count: 12_000, draw: |random, _| at_ratio(random) },
    Kind { name: "product at 1e-60", count: 12_000, draw: |random, _| at_product(random) },
    Kind { name: "all equal, 1e-150 to 1e150", count: 3_000, draw: equal },
    Kind { name: "with NaN", count: 4_000, draw: |random, _| with(random, Random::nan) },
    Kind { name: "with infinities", count: 4_000, draw: |random, _| with(random, Random::infinite) },
    Kind { name: "subnormal", count: 3_000, draw: |random, _| of_size(random, Random::subnormal) },
    Kind { name: "tiny", count: 4_000, draw: |random, _| of_size(random, Random::tiny) },
    Kind { name: "huge", count: 4_000, draw: |random, _| of_size(random, Random::huge) },
    Kind { name: "bit patterns", count: 6_000, draw: |random, _| [(); 10].map(|()| random.bits()) },
    Kind { name: "mixed", count: 6_000, draw: |random, _| mixed(random) },
    Kind { name: "near 1e75", count: 4_000, draw: |random, _| of_size(random, near_limit) },
];

/// Whole lengths: any, small ones, many zeros, all of the largest size.
pub fn whole(random: &mut Random) -> Simplex {
    let limit = random.pick(&[1, 2, 5, 100, 32_768, 32_768]);
    match random.below(4) {
        0 => [(); 10].map(|()| random.sign() * limit as f64),
        1 => [(); 10].map(|()| if random.below(2) == 0 { random.zero() } else { random.whole(limit) }),
        _ => [(); 10].map(|()| random.whole(limit)),
    }
}

/// Lengths that fit no simplex, of either sign or of one.
fn uniform(random: &mut Random) -> Simplex {
    let (low, high) = random.pick(&[(-1.0, 1.0), (-10.0, 10.0), (0.5, 2.0), (-2.0, -0.5), (-1e6, 1e6)]);
    [(); 10].map(|()| random.between(low, high))
}

/// The squared length between two points: the squares of the coordinates' differences with these weights.
pub fn between(a: &[f64; 4], b: &[f64; 4], weights: [f64; 4]) -> f64 {
    let square = |k: usize| weights[k] * ((a[k] - b[k]) * (a[k] - b[k]));
    square(0) + square(1) + square(2) + square(3)
}

/// The squared lengths between five points.
fn between_points(points: &[[f64; 4]; 5], weights: [f64; 4]) -> Simplex {
    EDGES.map(|(a, b)| between(&points[a], &points[b], weights))
}

/// Five points of a cube of any size.
fn points(random: &mut Random) -> [[f64; 4]; 5] {
    let size = random.spread(-20, 20);
    [(); 5].map(|()| [(); 4].map(|()| random.between(-size, size)))
}

/// The weights of Minkowski space, of either signature.
pub fn signature(random: &mut Random) -> [f64; 4] {
    let sign = random.sign();
    [-sign, sign, sign, sign]
}

/// A simplex of Minkowski space.
fn minkowski(random: &mut Random) -> Simplex {
    let points = points(random);
    between_points(&points, signature(random))
}

/// A simplex of Euclidean space, or the negative of one.
fn euclidean(random: &mut Random) -> Simplex {
    let points = points(random);
    between_points(&points, [random.sign(); 4])
}

/// Points of a small lattice, many of whose edges are null, or a simplex with zeros of either sign put in.
fn null(random: &mut Random) -> Simplex {
    if random.below(2) == 0 {
        let points = [(); 5].map(|()| [(); 4].map(|()| random.whole(2)));
        return between_points(&points, signature(random));
    }
    let simplex = minkowski(random);
    simplex.map(|s| if random.below(3) == 0 { random.zero() } else { s })
}

/// Points of a line, a plane or a hyperplane, or repeated points, whole or not.
fn degenerate(random: &mut Random) -> Simplex {
    let mut points = points(random);
    if random.below(2) == 0 {
        points = points.map(|point| point.map(|_| random.whole(9)));
    }
    let dimensions = 1 + random.below(4);
    let first = random.below(4);
    for point in &mut points {
        for k in dimensions..4 {
            point[(first + k) % 4] = 0.0;
        }
    }
    if dimensions == 4 {
        points[random.below(5)] = points[random.below(5)];
    }
    let weights = signature(random);
    between_points(&points, random.pick(&[weights, [1.0; 4]]))
}

/// A simplex of either space.
fn either_space(random: &mut Random) -> Simplex {
    if random.below(2) == 0 { minkowski(random) } else { euclidean(random) }
}

/// The cofactors C_lm, C_ll and C_mm of an edge.
fn cofactors(simplex: &Simplex, edge: usize) -> [f64; 3] {
    let matrix = cm_matrix_signed(simplex);
    let (l, m) = (EDGES[edge].0 + 1, EDGES[edge].1 + 1);
    [cofactor_6x6(&matrix, l, m), cofactor_6x6(&matrix, l, l), cofactor_6x6(&matrix, m, m)]
}

/// A simplex with the ratio of one of its edges at a limit or a few ulps away: C_lm is linear in the edge's own length, C_ll and C_mm don't depend on it.
fn at_ratio(random: &mut Random) -> Simplex {
    loop {
        let mut simplex = either_space(random);
        let edge = random.below(10);
        let unit = simplex[edge];
        let ratio_with = |length: f64| {
            let mut changed = simplex;
            changed[edge] = length;
            let [c_lm, c_ll, c_mm] = cofactors(&changed, edge);
            -c_lm / (c_ll * c_mm).sqrt()
        };
        let (start, end) = (ratio_with(0.0), ratio_with(unit));
        let target = random.sign() * random.pick(&[1.0, RATIO_LIMIT, RATIO_LIMIT]);
        let length = (target - start) / (end - start) * unit;
        if length.is_finite() {
            simplex[edge] = random.nudged(length, 4);
            return simplex;
        }
    }
}

/// A simplex scaled so that the product of two of its cofactors is at the limit or some ulps away; a product grows as the sixth power of the scale.
fn at_product(random: &mut Random) -> Simplex {
    loop {
        let simplex = match random.below(4) {
            0 => [random.sign(); 10],
            1 => null(random),
            _ => either_space(random),
        };
        let [_, c_ll, c_mm] = cofactors(&simplex, random.below(10));
        let scale = (PRODUCT_LIMIT / (c_ll * c_mm).abs()).powf(1.0 / 6.0);
        if scale.is_finite() {
            let scale = random.nudged(scale, 8);
            return simplex.map(|s| s * scale);
        }
    }
}

/// Ten equal lengths: the powers of ten of either sign, then any between them.
fn equal(random: &mut Random, number: usize) -> Simplex {
    let sign = random.sign();
    let length = match number {
        0..602 => format!("{}1e{}", ["", "-"][number % 2], number as i64 / 2 - 150).parse().unwrap(),
        _ => sign * 10f64.powf(random.between(-150.0, 150.0)),
    };
    [length; 10]
}

/// A simplex in which one length or several are of the sort.
fn with(random: &mut Random, sort: fn(&mut Random) -> f64) -> Simplex {
    let mut simplex = either_space(random);
    for _ in 0..random.pick(&[1, 1, 2, 5]) {
        simplex[random.below(10)] = sort(random);
    }
    simplex
}

/// A simplex in which one length, several or all are of the sort, or all are at most as large as one of the sort.
fn of_size(random: &mut Random, sort: fn(&mut Random) -> f64) -> Simplex {
    let size = sort(random);
    match random.below(3) {
        0 => with(random, sort),
        1 => [(); 10].map(|()| sort(random)),
        _ => [(); 10].map(|()| size * random.between(-1.0, 1.0)),
    }
}

/// A length of either sign near 1e75, the size up to which our cofactors share minors, or a power of two further off: larger ones overflow.
fn near_limit(random: &mut Random) -> f64 {
    if random.below(2) == 0 {
        return random.spread(244, 262);
    }
    random.sign() * random.nudged(1e75, 2)
}

/// The sorts of a single number.
pub const SORTS: [fn(&mut Random) -> f64; 10] = [
    |random| random.whole(9),
    |random| random.between(-2.0, 2.0),
    |random| random.spread(-60, 60),
    Random::zero,
    Random::nan,
    Random::infinite,
    Random::subnormal,
    Random::tiny,
    Random::huge,
    Random::bits,
];

/// Lengths of several sorts.
fn mixed(random: &mut Random) -> Simplex {
    [(); 10].map(|()| random.pick(&SORTS)(random))
}

/// The step of the Jacobian at the simplex of a number.
pub fn step(random: &mut Random, number: usize) -> f64 {
    match number % 11 {
        0 => 1e-6,
        1 => 1e-3,
        2 => random.spread(-40, 10),
        3 => random.zero(),
        4 => random.nan(),
        5 => random.infinite(),
        6 => random.subnormal(),
        7 => -1e-6,
        8 => random.huge(),
        9 => random.spread(1022, 1023),
        _ => random.between(0.0, 1e-4),
    }
}
