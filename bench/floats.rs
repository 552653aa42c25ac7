//! Our root and angle functions beside Rust's methods and fdlibm's C, all called by their address.
use crate::ffi;
use crate::near::{assert_near, assert_same};
use crate::reference::{fdlibm_acos, fdlibm_acosh, fdlibm_asinh, fdlibm_log, fdlibm_log1p, fdlibm_sqrt};
use crate::tables::{Effort, print_table, ratio, seconds, time};
use calls::random::Random;

/// How many numbers a function is asked for in one timing.
const NUMBERS: usize = 4_096;

/// The exponents of numbers of ordinary size, as powers of two: from about a millionth to about a million.
const EXPONENTS: (i64, i64) = (-20, 19);

/// A function of one number.
type Form = fn(f64) -> f64;

/// A function: its name, its inputs in words, ours, Rust's method and fdlibm's C, and how inputs are drawn.
type Function = (&'static str, &'static str, [Form; 3], fn(&mut Random) -> f64);

/// A number of ordinary size, of either sign.
fn signed(random: &mut Random) -> f64 {
    random.spread(EXPONENTS.0, EXPONENTS.1)
}

/// A number of ordinary size above zero.
fn positive(random: &mut Random) -> f64 {
    signed(random).abs()
}

/// A number of ordinary size above one.
fn above_one(random: &mut Random) -> f64 {
    1.0 + positive(random)
}

/// A number from -1 to 1.
fn unit(random: &mut Random) -> f64 {
    random.between(-1.0, 1.0)
}

const FUNCTIONS: [Function; 6] = [
    ("root", "2^-20 to 2^20", [|x| ffi::cjapthumi_root(x), f64::sqrt, |x| fdlibm_sqrt(x)], positive),
    ("acos", "-1 to 1", [|x| ffi::cjapthumi_acos(x), f64::acos, |x| fdlibm_acos(x)], unit),
    ("acosh", "1 + 2^-20 to 1 + 2^20", [|x| ffi::cjapthumi_acosh(x), f64::acosh, |x| fdlibm_acosh(x)], above_one),
    ("asinh", "2^-20 to 2^20, either sign", [|x| ffi::cjapthumi_asinh(x), f64::asinh, |x| fdlibm_asinh(x)], signed),
    ("log", "2^-20 to 2^20", [|x| ffi::cjapthumi_log(x), f64::ln, |x| fdlibm_log(x)], positive),
    ("log1p", "2^-20 to 2^20", [|x| ffi::cjapthumi_log1p(x), f64::ln_1p, |x| fdlibm_log1p(x)], positive),
];

/// The sum of what a function gives.
#[inline(never)]
fn sum(function: Form, inputs: &[f64]) -> f64 {
    inputs.iter().map(|&x| function(x)).sum()
}

/// A function's line of the table, after its answers were compared with the C's.
fn row(effort: Effort, (name, range, [ours, rust, c], draw): Function) -> Vec<String> {
    let mut random = Random(4);
    let inputs: Vec<f64> = (0..NUMBERS).map(|_| draw(&mut random)).collect();
    let answers = |function: Form| inputs.iter().map(|&x| function(x)).collect::<Vec<_>>();
    assert_same(&answers(ours), &answers(c));
    assert_near(&answers(ours), &answers(rust));
    let times =
        effort.medians([&mut || seconds(|| sum(ours, &inputs)), &mut || seconds(|| sum(rust, &inputs)), &mut || {
            seconds(|| sum(c, &inputs))
        }]);
    let [ours, rust, c] = times.map(|seconds| seconds / NUMBERS as f64);
    let cells = [ours, rust, c].map(time).into_iter().chain([rust, c].map(|other| ratio(other, ours)));
    [format!("{name} of {range}")].into_iter().chain(cells).collect()
}

/// Prints the table.
pub fn print(effort: Effort) {
    let rows: Vec<_> = FUNCTIONS.into_iter().map(|function| row(effort, function)).collect();
    let heading = ["a call", "ours", "Rust's method", "fdlibm's C", "Rust / ours", "C / ours"];
    print_table("Floats", &heading, &rows);
}
