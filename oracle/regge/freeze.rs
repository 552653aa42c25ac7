//! The altered Rust's answers on a small sample, as the input and the output of a replay.
use crate::random::Random;
use crate::simplexes::{EDGES, KINDS, Simplex, step};
use crate::tally::hex;
use crate::triples::{self, Triple};
use altered::geometry::cofactor_6x6;
use altered::lorentzian::{
    HingeType, all_lorentzian_dihedrals, all_lorentzian_dihedrals_jacobian, cm_matrix_signed, lorentzian_dihedral,
    tri_area_sq_grad_in_pent, triangle_area_sq_lorentzian,
};
use altered::lorentzian_regge::compute_dihedral;
use std::fmt::Write;
use std::process::ExitCode;

/// Simplexes that are always frozen: all 1, one timelike edge, zeros of either sign, the largest whole lengths.
const CHOSEN: [Simplex; 7] = [
    [1.0; 10],
    [-1.0, 1.0, 1.0, 1.0, 0.0, 0.0, 0.0, 2.0, 2.0, 2.0],
    [0.0; 10],
    [-0.0; 10],
    [32_768.0; 10],
    [-32_768.0; 10],
    [32_768.0, -32_768.0, 32_768.0, -32_768.0, -32_768.0, 32_768.0, 32_768.0, -32_768.0, -32_768.0, 32_768.0],
];

const NAN: f64 = f64::NAN;
const INFINITY: f64 = f64::INFINITY;

/// Triples that are always frozen: NaN or infinite ratios and products, zero products, angles and boosts of all signs.
const CHOSEN_TRIPLES: [Triple; 32] = [
    [NAN, 1.0, 1.0],
    [NAN, -1.0, -1.0],
    [NAN, 1.0, -1.0],
    [NAN, 0.0, 1.0],
    [1.0, NAN, 1.0],
    [1.0, 1.0, NAN],
    [1.0, INFINITY, 0.0],
    [INFINITY, 1e200, 1e200],
    [-INFINITY, -1e200, -1e200],
    [INFINITY, 1e200, -1e200],
    [1.0, 1e200, 1e200],
    [1.0, 1e200, -1e200],
    [-1.0, 1e200, -1e200],
    [INFINITY, 1.0, 1.0],
    [-INFINITY, 1.0, 1.0],
    [INFINITY, 1.0, -1.0],
    [-INFINITY, 1.0, -1.0],
    [1.0, 0.0, 1.0],
    [1.0, -0.0, 1.0],
    [1.0, 1e-200, 1e-200],
    [1.0, 1e-200, -1e-200],
    [0.0, 1.0, 1.0],
    [-0.0, 1.0, 1.0],
    [0.0, -1.0, -1.0],
    [0.0, 1.0, -1.0],
    [-0.0, -1.0, 1.0],
    [2.0, 1.0, 1.0],
    [-2.0, 1.0, 1.0],
    [2.0, -1.0, -1.0],
    [-2.0, -1.0, -1.0],
    [2.0, 1.0, -1.0],
    [-2.0, -1.0, 1.0],
];

/// The simplexes that are frozen, with their steps: those chosen with a step of 1e-6, then some of every kind.
fn simplexes() -> Vec<(Simplex, f64)> {
    let mut simplexes: Vec<_> = CHOSEN.map(|simplex| (simplex, 1e-6)).into();
    let mut random = Random(200);
    for kind in &KINDS {
        for number in [0, 299, 598] {
            let simplex = (kind.draw)(&mut random, number);
            simplexes.push((simplex, step(&mut random, simplexes.len())));
        }
    }
    simplexes
}

/// The triples that are frozen.
fn triples() -> Vec<Triple> {
    let mut triples = CHOSEN_TRIPLES.to_vec();
    triples.extend(triples::at_ratio(1, &[-90, 0]));
    triples.extend(triples::at_product(2, &[1e-30, -3e-30], &[0]));
    triples.extend(triples::special().into_iter().step_by(311));
    let mut random = Random(201);
    for draw in [triples::near_ratio, triples::near_product, triples::mixed] {
        triples.extend((0..4).map(|_| draw(&mut random)));
    }
    triples
}

/// Each number after a space, as bits or as nan.
fn numbers(numbers: &[f64]) -> String {
    let shown = |x: &f64| if x.is_nan() { " nan".to_string() } else { format!(" {}", hex(&[*x])) };
    numbers.iter().map(shown).collect()
}

/// A dihedral and its kind's letter, each after a space.
fn dihedral((value, kind): (f64, HingeType)) -> String {
    let letter = if kind == HingeType::Spacelike { 'S' } else { 'T' };
    format!("{} {letter}", numbers(&[value]))
}

/// The lines of a simplex's cofactors.
fn cofactor_lines(s: &Simplex) -> String {
    let matrix = cm_matrix_signed(s);
    let row = |row: usize| [0, 1, 2, 3, 4, 5].map(|col| cofactor_6x6(&matrix, row, col));
    let upper: String = (1..6).map(|k| numbers(&row(k)[k..])).collect();
    let rows: String = (0..6).map(|k| format!("row {k}{}\n", numbers(&row(k)))).collect();
    format!("cofactors{upper}\n{rows}")
}

/// The lines of a simplex's triangles.
fn triangle_lines(s: &Simplex) -> String {
    let length = |a: usize, b: usize| s[EDGES.iter().position(|&pair| pair == (a, b)).unwrap()];
    let mut lines = String::new();
    for (a, b) in EDGES {
        for c in b + 1..5 {
            let area = triangle_area_sq_lorentzian(length(a, b), length(a, c), length(b, c));
            let gradient = tri_area_sq_grad_in_pent(s, [a, b, c]);
            writeln!(lines, "triangle {a}{b}{c}{}{}", numbers(&[area]), numbers(&gradient)).unwrap();
        }
    }
    lines
}

/// The lines of a simplex's dihedrals and of their Jacobian.
fn dihedral_lines(s: &Simplex, eps: f64) -> String {
    let mut lines = String::new();
    for (l, m) in (0..25).map(|code| (code / 5, code % 5)).filter(|(l, m)| l != m) {
        writeln!(lines, "dihedral {l} {m}{}", dihedral(lorentzian_dihedral(s, l, m))).unwrap();
    }
    let all: String = all_lorentzian_dihedrals(s).map(dihedral).concat();
    writeln!(lines, "all{all}").unwrap();
    for (k, row) in all_lorentzian_dihedrals_jacobian(s, eps).iter().enumerate() {
        writeln!(lines, "jacobian {k}{}", numbers(row)).unwrap();
    }
    lines
}

/// Writes the sample and the answers.
pub fn freeze(inputs_path: &str, answers_path: &str) -> ExitCode {
    let (mut inputs, mut answers) = (String::new(), String::new());
    let (simplexes, triples) = (simplexes(), triples());
    for (s, eps) in &simplexes {
        writeln!(inputs, "p {} {}", hex(s), hex(&[*eps])).unwrap();
        answers += &(cofactor_lines(s) + &triangle_lines(s) + &dihedral_lines(s, *eps));
    }
    for triple @ [c_lm, c_ll, c_mm] in &triples {
        writeln!(inputs, "d {}", hex(triple)).unwrap();
        writeln!(answers, "compute{}", dihedral(compute_dihedral(*c_lm, *c_ll, *c_mm))).unwrap();
    }
    println!(
        "{} simplexes and {} triples frozen, {} and {} bytes",
        simplexes.len(),
        triples.len(),
        inputs.len(),
        answers.len()
    );
    for (path, text) in [(inputs_path, inputs), (answers_path, answers)] {
        if let Err(error) = std::fs::write(path, text) {
            eprintln!("{path}: {error}");
            return ExitCode::from(2);
        }
    }
    ExitCode::SUCCESS
}
