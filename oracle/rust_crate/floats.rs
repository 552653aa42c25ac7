//! The crate's functions on floats beside fdlibm's C.
use crate::reference::{fdlibm_acos, fdlibm_acosh, fdlibm_asinh, fdlibm_log, fdlibm_log1p, fdlibm_sqrt};
use crate::report::{Report, bits};
use calls::random::Random;
use cjapthumi::fdlibm;
use hinges::simplexes::SORTS;

/// How many numbers of each sort are drawn.
const DRAWN: usize = 2_000;

/// A function's name, the crate's and the other.
type Function = (&'static str, fn(f64) -> f64, fn(f64) -> f64);

/// The functions.
const FUNCTIONS: [Function; 6] = [
    ("root", fdlibm::root, |x| fdlibm_sqrt(x)),
    ("log", fdlibm::log, |x| fdlibm_log(x)),
    ("log1p", fdlibm::log1p, |x| fdlibm_log1p(x)),
    ("acos", fdlibm::acos, |x| fdlibm_acos(x)),
    ("acosh", fdlibm::acosh, |x| fdlibm_acosh(x)),
    ("asinh", fdlibm::asinh, |x| fdlibm_asinh(x)),
];

/// Compares them on numbers of every sort, and on as many from -1 to 1.
pub fn compare(report: &mut Report) {
    let mut random = Random::of_round(2_500);
    for number in 0..(SORTS.len() + 1) * DRAWN {
        let x = match SORTS.get(number / DRAWN) {
            Some(sort) => sort(&mut random),
            None => random.between(-1.0, 1.0),
        };
        for (name, ours, other) in FUNCTIONS {
            report.plain(name, || format!("{x:?}"), bits(ours(x)), bits(other(x)));
        }
    }
}
