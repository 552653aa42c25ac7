//! The triples c_lm, c_ll, c_mm that compute_dihedral is given.
use crate::random::Random;
use crate::simplexes::{PRODUCT_LIMIT, RATIO_LIMIT, SORTS};

pub type Triple = [f64; 3];

/// A number that is so many ulps away from x.
fn ulps_from(x: f64, ulps: i64) -> f64 {
    f64::from_bits(x.to_bits().wrapping_add_signed(ulps))
}

/// Ratios at a limit and up to reach ulps away, with both signs, on denominators that are the powers of two.
pub fn at_ratio(reach: i64, exponents: &[i32]) -> Vec<Triple> {
    let mut triples = Vec::new();
    for limit in [RATIO_LIMIT, 1.0, -RATIO_LIMIT, -1.0] {
        for ulps in -reach..=reach {
            for &exponent in exponents {
                let denominator = 2f64.powi(exponent);
                let c_lm = ulps_from(limit, ulps) * denominator;
                triples.push([c_lm, denominator, denominator]);
                triples.push([c_lm, -2.0 * denominator, -0.5 * denominator]);
            }
        }
    }
    triples
}

/// Products at the limit and up to reach ulps away, with all signs of the cofactors.
pub fn at_product(reach: i64, numerators: &[f64], exponents: &[i32]) -> Vec<Triple> {
    let mut triples = Vec::new();
    for ulps in -reach..=reach {
        for &exponent in exponents {
            let factor = 2f64.powi(exponent);
            let (c_ll, c_mm) = (ulps_from(PRODUCT_LIMIT, ulps) * factor, 1.0 / factor);
            for &c_lm in numerators {
                for (first, second) in [(1.0, 1.0), (-1.0, -1.0), (1.0, -1.0), (-1.0, 1.0)] {
                    triples.push([c_lm, first * c_ll, second * c_mm]);
                }
            }
        }
    }
    triples
}

/// Numbers whose products and ratios are zeros, subnormal, infinite or NaN.
const SPECIAL: [f64; 20] = [
    0.0,
    -0.0,
    5e-324,
    -5e-324,
    1e-200,
    -1e-200,
    1e-30,
    -1e-30,
    1.0,
    -1.0,
    1.5,
    -3.0,
    1e30,
    -1e30,
    1e200,
    -1e200,
    f64::MAX,
    f64::INFINITY,
    f64::NEG_INFINITY,
    f64::NAN,
];

/// All triples of special numbers.
pub fn special() -> Vec<Triple> {
    let mut triples = Vec::new();
    for c_lm in SPECIAL {
        for c_ll in SPECIAL {
            for c_mm in SPECIAL {
                triples.push([c_lm, c_ll, c_mm]);
            }
        }
    }
    triples
}

/// Cofactors of any size, and c_lm so that the ratio is near a limit.
pub fn near_ratio(random: &mut Random) -> Triple {
    let (c_ll, c_mm) = (random.spread(-90, 400), random.spread(-90, 400));
    let ratio = random.sign() * random.pick(&[1.0, RATIO_LIMIT]);
    [random.nudged(ratio * (c_ll * c_mm).abs().sqrt(), 3), c_ll, c_mm]
}

/// Cofactors whose product is near the limit.
pub fn near_product(random: &mut Random) -> Triple {
    let c_ll = random.spread(-400, 400);
    let c_mm = random.sign() * PRODUCT_LIMIT / c_ll;
    [random.spread(-110, -90), c_ll, random.nudged(c_mm, 3)]
}

/// Numbers of several sorts.
pub fn mixed(random: &mut Random) -> Triple {
    [(); 3].map(|()| random.pick(&SORTS)(random))
}
