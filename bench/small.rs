//! Our calls on floats and on one pentachoron, as the stack measures them: for each branch an input, and calls that are refused.
use crate::ffi;
use crate::local::STEP;
use std::hint::black_box;

unsafe extern "C" {
    safe fn cjapthumi_abs(x: f64) -> f64;
    safe fn cjapthumi_signum(x: f64) -> f64;
    safe fn cjapthumi_clamp_unit(x: f64) -> f64;
}

/// NaN, for short.
const NAN: f64 = f64::NAN;

/// The squared lengths of a pentachoron's edges.
pub type Lengths = [f64; 10];

/// Pentachorons: a name in words, and lengths.
pub const PENTACHORONS: [(&str, Lengths); 7] = [
    ("all spacelike", [1.0; 10]),
    ("all timelike", [-1.0; 10]),
    ("of all sorts: angles and mixed", [-1.0, 1.0, 1.0, 1.0, 0.0, 0.0, 0.0, 2.0, 2.0, 2.0]),
    ("thin: boosts", [1.0, 1.0, 1.0, 0.1775, 2.0, 2.0, 0.6775, 2.0, 0.6775, 0.6775]),
    ("flat: angles 0 and π", [1.0, 1.0, 1.0, 3.0, 2.0, 2.0, 2.0, 2.0, 2.0, 2.0]),
    ("all zero", [0.0; 10]),
    ("all NaN", [NAN; 10]),
];

/// Gives 0 for a call that refuses nothing.
fn done<T>(answer: T) -> u32 {
    black_box(answer);
    0
}

/// A function of one number: its name, a call of it, which gives 0, and a number for each branch.
type OfOne = (&'static str, fn(f64) -> u32, &'static [f64]);

/// The numbers of functions with few branches.
const ANY: &[f64] = &[0.0, 1e-310, 0.3, -0.3, 2.0, -2.0, 1e300, NAN];

/// The functions of one number.
pub const OF_ONE: [OfOne; 9] = [
    ("root", |x| done(ffi::cjapthumi_root(x)), ANY),
    (
        "log",
        |x| done(ffi::cjapthumi_log(x)),
        &[-0.3, 0.0, 1e-310, 0.3, 1.0, 1.0000001, 1.2, 1.4, 2.0, 2.0000002, 2.8, 1e300, NAN],
    ),
    (
        "log1p",
        |x| done(ffi::cjapthumi_log1p(x)),
        &[-2.0, -1.0, 1e-20, 1e-9, 0.3, -0.2, -0.5, 0.8, 1.0, 1.0000001, 3.3, 1e10, 1e300, NAN],
    ),
    ("acos", |x| done(ffi::cjapthumi_acos(x)), &[1e-20, 0.3, 0.7, -0.7, 1.0, -1.0, 2.0, NAN]),
    ("acosh", |x| done(ffi::cjapthumi_acosh(x)), &[-0.3, 0.3, 1.0, 1.3, 3.0, 1e10, 1e300, NAN]),
    ("asinh", |x| done(ffi::cjapthumi_asinh(x)), &[1e-10, 0.3, -0.3, 3.0, -3.0, 1e10, -1e10, NAN]),
    ("abs", |x| done(cjapthumi_abs(x)), ANY),
    ("signum", |x| done(cjapthumi_signum(x)), ANY),
    ("clamp_unit", |x| done(cjapthumi_clamp_unit(x)), ANY),
];

/// A function of three numbers: its name, a call of it, which gives 0, and its inputs with their names in words.
type OfThree = (&'static str, fn([f64; 3]) -> u32, &'static [(&'static str, [f64; 3])]);

/// The squared lengths of triangles.
const TRIANGLES: &[(&str, [f64; 3])] =
    &[("spacelike", [1.0, 2.0, 2.5]), ("timelike", [-1.0, -2.0, 2.5]), ("flat", [1.0, 1.0, 4.0]), ("NaN", [NAN; 3])];

/// Three cofactors of each sort.
const COFACTORS: &[(&str, [f64; 3])] = &[
    ("about a right angle", [-4.0, 16.0, 16.0]),
    ("an acute angle", [-12.0, 16.0, 16.0]),
    ("an obtuse angle", [-12.0, -16.0, -16.0]),
    ("clamped", [-1.0 - 5e-13, 1.0, 1.0]),
    ("a small boost", [-20.0, 16.0, 16.0]),
    ("a boost", [-48.0, 16.0, 16.0]),
    ("a large boost", [1e12, 16.0, 16.0]),
    ("mixed, small", [-8.0, -16.0, 8.0]),
    ("mixed", [48.0, -16.0, 8.0]),
    ("mixed, large", [1e12, 16.0, -8.0]),
    ("degenerate", [1.0, 0.0, 8.0]),
    ("NaN", [NAN; 3]),
];

/// The functions of three numbers.
pub const OF_THREE: [OfThree; 3] = [
    (
        "triangle_area_sq_lorentzian",
        |[s01, s02, s12]| done(ffi::cjapthumi_triangle_area_sq_lorentzian(s01, s02, s12)),
        TRIANGLES,
    ),
    (
        "triangle_area_sq_grad",
        |[s01, s02, s12]| unsafe { done(ffi::cjapthumi_triangle_area_sq_grad(s01, s02, s12, [0.0; 3].as_mut_ptr())) },
        TRIANGLES,
    ),
    (
        "compute_dihedral",
        |[c_lm, c_ll, c_mm]| unsafe { done(ffi::cjapthumi_compute_dihedral(c_lm, c_ll, c_mm, &mut 0.0)) },
        COFACTORS,
    ),
];

/// Asks for a cofactor of a pentachoron's matrix; 0 or the refusal's number.
fn cofactor(s: &Lengths, row: usize, col: usize) -> u32 {
    let mut matrix = [0.0; 36];
    unsafe {
        ffi::cjapthumi_cm_matrix_signed(s.as_ptr(), matrix.as_mut_ptr());
        ffi::cjapthumi_cofactor_6x6(matrix.as_ptr(), row, col, &mut 0.0)
    }
}

/// Asks for the gradient of a triangle's area; 0 or the refusal's number.
fn area_grad(s: &Lengths, tri: [usize; 3]) -> u32 {
    unsafe { ffi::cjapthumi_tri_area_sq_grad_in_pent(s.as_ptr(), tri.as_ptr(), [0.0; 10].as_mut_ptr()) }
}

/// Asks for a dihedral; 0 or the refusal's number.
fn dihedral(s: &Lengths, l: usize, m: usize) -> u32 {
    unsafe { ffi::cjapthumi_lorentzian_dihedral(s.as_ptr(), l, m, &mut 0.0, &mut 0) }
}

/// A call on a pentachoron: 0 or the refusal's number.
type Call = fn(&Lengths) -> u32;

/// The functions of a pentachoron, each with a call that answers.
pub const ANSWERED: [(&str, Call); 7] = [
    ("cofactor_6x6", |s| cofactor(s, 1, 2)),
    ("cm_matrix_signed", |s| unsafe { done(ffi::cjapthumi_cm_matrix_signed(s.as_ptr(), [0.0; 36].as_mut_ptr())) }),
    ("cm_cofactors", |s| unsafe { done(ffi::cjapthumi_cm_cofactors(s.as_ptr(), [0.0; 15].as_mut_ptr())) }),
    ("tri_area_sq_grad_in_pent", |s| area_grad(s, [0, 2, 4])),
    ("lorentzian_dihedral", |s| dihedral(s, 0, 1)),
    ("all_lorentzian_dihedrals", |s| unsafe {
        let (mut values, mut kinds) = ([0.0; 10], [0; 10]);
        done(ffi::cjapthumi_all_lorentzian_dihedrals(s.as_ptr(), values.as_mut_ptr(), kinds.as_mut_ptr()))
    }),
    ("all_lorentzian_dihedrals_jacobian", |s| unsafe {
        done(ffi::cjapthumi_all_lorentzian_dihedrals_jacobian(s.as_ptr(), STEP, [0.0; 100].as_mut_ptr()))
    }),
];

/// Those that refuse, with calls that are refused: names and inputs in words.
pub const REFUSED: [(&str, &str, Call); 6] = [
    ("cofactor_6x6", "row 6", |s| cofactor(s, 6, 2)),
    ("cofactor_6x6", "column 6", |s| cofactor(s, 1, 6)),
    ("tri_area_sq_grad_in_pent", "vertex 5", |s| area_grad(s, [0, 2, 5])),
    ("tri_area_sq_grad_in_pent", "a vertex twice", |s| area_grad(s, [0, 4, 4])),
    ("lorentzian_dihedral", "vertex 5", |s| dihedral(s, 0, 5)),
    ("lorentzian_dihedral", "a vertex twice", |s| dihedral(s, 1, 1)),
];
