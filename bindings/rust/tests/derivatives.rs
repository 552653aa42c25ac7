//! The action's derivatives: beside differences of the action, and over any choice of free edges.
use cjapthumi::Complex;
use cjapthumi::foliation::{flat_minkowski_sq_lengths, foliated_hypercubic};
use cjapthumi::lorentzian::{all_lorentzian_dihedrals, all_lorentzian_dihedrals_jacobian};
use cjapthumi::lorentzian_regge::{
    local_lorentzian_regge_action_grad, local_lorentzian_regge_hessian, lorentzian_regge_action,
    lorentzian_regge_action_grad,
};

/// The smallest lattice in which a step forward and a step back lead to different vertices, with lengths that are no longer flat.
fn curved() -> (Complex, Vec<f64>) {
    let lattice = foliated_hypercubic(3, 3).unwrap();
    let flat = flat_minkowski_sq_lengths(&lattice, 1.0, 0.5);
    let moved = flat.iter().enumerate().map(|(edge, length)| length + 1e-3 * ((edge * 7 % 11) as f64 - 5.0));
    (lattice.complex.clone(), moved.collect())
}

#[test]
fn the_gradient_is_that_of_the_action() {
    let (complex, mut lengths) = curved();
    let grad = lorentzian_regge_action_grad(&complex, &lengths).unwrap();
    for edge in [0, 100, 1_214] {
        let (old, step) = (lengths[edge], 1e-6);
        let mut action = |length: f64| {
            lengths[edge] = length;
            lorentzian_regge_action(&complex, &lengths).unwrap()
        };
        let difference = (action(old + step) - action(old - step)) / (2.0 * step);
        action(old);
        assert!((difference - grad[edge]).abs() < 1e-6, "edge {edge}: {difference} and {}", grad[edge]);
    }
}

#[test]
fn the_hessian_is_that_of_the_gradient() {
    let (complex, mut lengths) = curved();
    let free: Vec<usize> = complex.pent_edge_indices(17).into_iter().chain([500, 900]).collect();
    let hessian = local_lorentzian_regge_hessian(&complex, &lengths, &free, 1e-6).unwrap();
    for (col, &edge) in free.iter().enumerate() {
        let (old, step) = (lengths[edge], 1e-6);
        let mut grad = |length: f64| {
            lengths[edge] = length;
            local_lorentzian_regge_action_grad(&complex, &lengths, &free).unwrap()
        };
        let (plus, minus) = (grad(old + step), grad(old - step));
        grad(old);
        for row in 0..free.len() {
            let (difference, entry) = ((plus[row] - minus[row]) / (2.0 * step), hessian[(row, col)]);
            assert!((difference - entry).abs() < 1e-4, "({row}, {col}): {difference} and {entry}");
        }
    }
}

#[test]
fn rows_and_columns_come_in_the_order_of_the_free_edges() {
    let (complex, lengths) = curved();
    let all: Vec<usize> = complex.pent_edge_indices(5).into();
    let reversed: Vec<usize> = all.iter().rev().copied().collect();
    let [whole, turned] =
        [&all, &reversed].map(|free| local_lorentzian_regge_hessian(&complex, &lengths, free, 1e-3).unwrap());
    for (row, col) in (0..100).map(|place| (place / 10, place % 10)) {
        assert_eq!(whole[(row, col)].to_bits(), turned[(9 - row, 9 - col)].to_bits());
    }
    assert_eq!(whole.as_row_slice()[13], whole[(1, 3)]);
}

#[test]
fn a_hessian_can_be_shifted() {
    let (complex, lengths) = curved();
    let mut hessian = local_lorentzian_regge_hessian(&complex, &lengths, &[3, 5], 1e-3).unwrap();
    let before = hessian.clone();
    hessian[(1, 0)] += 1.0;
    assert_eq!(hessian[(1, 0)], before[(1, 0)] + 1.0);
    assert_eq!([(0, 0), (0, 1), (1, 1)].map(|at| hessian[at]), [(0, 0), (0, 1), (1, 1)].map(|at| before[at]));
}

#[test]
#[should_panic(expected = "(0, 2) is outside a matrix of size 2")]
fn a_column_outside_is_no_entry_of_the_next_row() {
    let (complex, lengths) = curved();
    let hessian = local_lorentzian_regge_hessian(&complex, &lengths, &[3, 5], 1e-3).unwrap();
    assert_eq!(hessian[(0, 2)], hessian[(1, 0)]);
}

#[test]
fn a_row_whose_areas_do_not_change_needs_no_dihedral() {
    // The squared length 2 of edge 01 is the sum of the other two in each of its triangles, so no area has a derivative by it.
    let lengths = [2.0, 1.0, 1.0, 1.0, 1.0, 1.0, 1.0, 1.0, 1.0, 1.0];
    let complex = Complex::from_pentachorons(5, &[[0, 1, 2, 3, 4]]).unwrap();
    let all: Vec<usize> = (0..10).collect();
    let hessian = local_lorentzian_regge_hessian(&complex, &lengths, &all, f64::NAN).unwrap();
    assert!((0..10).all(|col| !hessian[(0, col)].is_nan()), "the first row has no difference quotient");
    assert!((1..10).all(|row| hessian[(row, 0)].is_nan()), "the first column has some");
}

#[test]
fn the_jacobian_is_the_difference_quotients() {
    let s = [-1.0, 1.0, 1.5, 1.0, 0.25, 0.5, 0.0, 2.0, 2.0, 2.25];
    let eps = 1e-3;
    let jac = all_lorentzian_dihedrals_jacobian(&s, eps);
    let moved = |edge: usize, by: f64| {
        let s = std::array::from_fn(|k| if k == edge { s[k] + by } else { s[k] });
        all_lorentzian_dihedrals(&s).map(|(value, _)| value)
    };
    for (pair, row) in jac.iter().enumerate() {
        for (edge, &entry) in row.iter().enumerate() {
            assert_eq!(entry, (moved(edge, eps)[pair] - moved(edge, -eps)[pair]) / (2.0 * eps));
        }
    }
}
