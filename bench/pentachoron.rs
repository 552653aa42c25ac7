//! The cofactors, dihedrals and Jacobian of one pentachoron, ours beside the Rust's.
use crate::ffi;
use crate::inputs::Input;
use crate::local::STEP;
use crate::near::{assert_near, assert_same};
use crate::tables::{Effort, print_table, ratio, seconds, time};
use phyz_regge::geometry::cofactor_6x6;
use phyz_regge::lorentzian::{
    HingeType, all_lorentzian_dihedrals, all_lorentzian_dihedrals_jacobian, cm_matrix_signed,
};
use std::hint::black_box;

/// How many pentachorons are asked for in one timing.
const PENTS: usize = 256;

/// The squared lengths of one pentachoron's edges.
type Lengths = [f64; 10];

/// Our fifteen cofactors.
fn cofactors(s: &Lengths) -> [f64; 15] {
    let mut cofactors = [0.0; 15];
    unsafe { ffi::cjapthumi_cm_cofactors(s.as_ptr(), cofactors.as_mut_ptr()) };
    cofactors
}

/// The Rust's, one by one.
fn rust_cofactors(s: &Lengths) -> [f64; 15] {
    let (matrix, mut cofactors, mut place) = (cm_matrix_signed(s), [0.0; 15], 0);
    for row in 1..6 {
        for column in row..6 {
            cofactors[place] = cofactor_6x6(&matrix, row, column);
            place += 1;
        }
    }
    cofactors
}

/// Our ten dihedrals and their kinds.
fn dihedrals(s: &Lengths) -> ([f64; 10], [u8; 10]) {
    let (mut values, mut kinds) = ([0.0; 10], [0; 10]);
    unsafe { ffi::cjapthumi_all_lorentzian_dihedrals(s.as_ptr(), values.as_mut_ptr(), kinds.as_mut_ptr()) };
    (values, kinds)
}

/// Makes sure that the Rust has the same kinds, and about the same numbers.
fn compare_dihedrals((values, kinds): ([f64; 10], [u8; 10]), rust: [(f64, HingeType); 10]) {
    assert_eq!(kinds, rust.map(|(_, kind)| kind as u8), "the kinds differ");
    assert_near(&values, &rust.map(|(value, _)| value));
}

/// Our Jacobian, row after row.
fn jacobian(s: &Lengths) -> [f64; 100] {
    let mut jacobian = [0.0; 100];
    unsafe { ffi::cjapthumi_all_lorentzian_dihedrals_jacobian(s.as_ptr(), STEP, jacobian.as_mut_ptr()) };
    jacobian
}

/// A call's line of the table, after its answers were compared with the Rust's.
fn row<A, B>(
    effort: Effort,
    name: String,
    pents: &[Lengths],
    (ours, rust): (impl Fn(&Lengths) -> A, impl Fn(&Lengths) -> B),
    compare: fn(A, B),
) -> Vec<String> {
    pents.iter().for_each(|s| compare(ours(s), rust(s)));
    let times = effort.medians([&mut || seconds(|| pents.iter().for_each(|s| drop(black_box(ours(s))))), &mut || {
        seconds(|| pents.iter().for_each(|s| drop(black_box(rust(s)))))
    }]);
    let [ours, rust] = times.map(|seconds| seconds / pents.len() as f64);
    vec![name, time(ours), time(rust), ratio(rust, ours)]
}

/// Prints the table, for the first pentachorons of some inputs.
pub fn print(effort: Effort, inputs: &[&Input]) {
    let mut rows = Vec::new();
    for input in inputs {
        let lengths = |pent| input.complex.pent_edge_indices(pent).map(|edge| input.lengths[edge]);
        let pents: Vec<Lengths> = (0..PENTS).map(lengths).collect();
        let name = |call: &str| format!("{call}: {}", input.name);
        let compare = |ours: [f64; 15], rust: [f64; 15]| assert_same(&ours, &rust);
        rows.push(row(effort, name("15 cofactors"), &pents, (cofactors, rust_cofactors), compare));
        let calls = (dihedrals, all_lorentzian_dihedrals);
        rows.push(row(effort, name("ten dihedrals"), &pents, calls, compare_dihedrals));
        let compare = |ours: [f64; 100], rust: [[f64; 10]; 10]| assert_near(&ours, rust.as_flattened());
        let rust = |s: &Lengths| all_lorentzian_dihedrals_jacobian(s, STEP);
        rows.push(row(effort, name("Jacobian"), &pents, (jacobian, rust), compare));
    }
    print_table("One pentachoron", &["a call", "ours", "Rust", "Rust / ours"], &rows);
}
