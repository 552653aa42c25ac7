//! The examples of the scope paper, P1 to P9 among them.
use cjapthumi::foliation::foliated_hypercubic;
use cjapthumi::geometry::cofactor_6x6;
use cjapthumi::length_signs::length_signs;
use cjapthumi::lorentzian::HingeType::{self, Spacelike, Timelike};
use cjapthumi::lorentzian::{
    cm_cofactors, cm_matrix_signed, lorentzian_dihedral, triangle_area_sq_grad, triangle_area_sq_lorentzian,
};
use cjapthumi::lorentzian_regge::{compute_dihedral, lorentzian_deficit_angles, lorentzian_regge_action_grad};
use cjapthumi::{Complex, Refusal, fdlibm};

/// Four points of Minkowski space one step from the origin along the axes, the first in time.
const AXES: [f64; 10] = [-1.0, 1.0, 1.0, 1.0, 0.0, 0.0, 0.0, 2.0, 2.0, 2.0];

/// The cofactor C_lm of ten squared lengths.
fn cofactor(s: &[f64; 10], l: usize, m: usize) -> f64 {
    cofactor_6x6(&cm_matrix_signed(s), l + 1, m + 1).unwrap()
}

/// The dihedral of l and m by the rule of the hinges.
fn hinge_dihedral(s: &[f64; 10], l: usize, m: usize) -> (f64, HingeType) {
    compute_dihedral(cofactor(s, l, m), cofactor(s, l, l), cofactor(s, m, m))
}

#[test]
fn p1_all_lengths_one() {
    let s = [1.0; 10];
    for (l, m) in (0..25).map(|place| (place / 5, place % 5)) {
        assert_eq!(cofactor(&s, l, m), if l == m { 4.0 } else { -1.0 });
    }
    let diagonal = [0, 5, 9, 12, 14];
    let expected: [f64; 15] = std::array::from_fn(|k| if diagonal.contains(&k) { 4.0 } else { -1.0 });
    assert_eq!(cm_cofactors(&s), expected);
    assert_eq!(hinge_dihedral(&s, 0, 1), (fdlibm::acos(0.25), Spacelike));
    assert_eq!(triangle_area_sq_lorentzian(1.0, 1.0, 1.0), 3.0 / 16.0);
    assert_eq!(triangle_area_sq_grad(1.0, 1.0, 1.0), [1.0 / 8.0; 3]);
}

#[test]
fn p2_cofactors_of_the_axes() {
    let cases = [(0, 0, -16.0), (1, 1, 8.0), (2, 2, -8.0), (0, 1, -8.0), (0, 2, 8.0), (2, 3, 0.0)];
    for (l, m, value) in cases {
        assert_eq!(cofactor(&AXES, l, m), value, "C_{l}{m}");
    }
}

#[test]
fn p3_dihedrals_of_the_axes() {
    for dihedral in [hinge_dihedral, |s: &[f64; 10], l, m| lorentzian_dihedral(s, l, m).unwrap()] {
        assert_eq!(dihedral(&AXES, 0, 1).1, Timelike);
        let (angle, kind) = dihedral(&AXES, 0, 2);
        assert!(kind == Spacelike && angle < fdlibm::acos(0.0), "the ratio is positive");
        let (angle, kind) = dihedral(&AXES, 2, 3);
        assert_eq!((angle.to_bits(), kind), (0x3ff9_21fb_5444_2d18, Spacelike));
        assert_eq!(dihedral(&AXES, 1, 2), (0.0, Timelike));
    }
}

#[test]
fn p4_the_two_rules_at_zero() {
    assert_eq!(hinge_dihedral(&[0.0; 10], 0, 1), (0.0, Spacelike));
    assert_eq!(lorentzian_dihedral(&[0.0; 10], 0, 1), Ok((0.0, Timelike)));
}

#[test]
fn p5_two_pentachorons() {
    let complex = Complex::from_pentachorons(6, &[[0, 1, 2, 3, 4], [1, 2, 3, 4, 5]]).unwrap();
    assert_eq!((complex.n_edges(), complex.n_triangles(), complex.tets.len()), (14, 16, 9));
}

#[test]
fn p6_a_pentachoron_twice() {
    let complex = Complex::from_pentachorons(5, &[[4, 3, 2, 1, 0]; 2]).unwrap();
    assert_eq!(complex.n_edges(), 10);
    assert_eq!(complex.tri_to_pents.len(), 10);
    assert!(complex.tri_to_pents.iter().all(|pents| *pents == [0, 1]));
}

#[test]
fn p7_and_p8_refused_pentachorons() {
    assert_eq!(Complex::from_pentachorons(5, &[[0, 1, 2, 3, 5]]).unwrap_err(), Refusal::VertexTooLarge(0));
    assert_eq!(Complex::from_pentachorons(5, &[[0, 0, 1, 2, 3]]).unwrap_err(), Refusal::RepeatedVertex(0));
}

#[test]
fn p9_roots() {
    assert_eq!(fdlibm::root(0.25), 0.5);
    assert!(fdlibm::root(-1.0).is_nan());
}

#[test]
fn lattices() {
    for (n_t, n_s, pents) in [(2, 2, 192), (3, 2, 576), (3, 3, 1_944), (5, 4, 7_680)] {
        assert_eq!(foliated_hypercubic(n_t, n_s).unwrap().complex.n_pents(), pents);
    }
    let lattice = foliated_hypercubic(3, 3).unwrap();
    let complex = &lattice.complex;
    assert_eq!((complex.n_edges(), complex.n_triangles(), complex.tets.len()), (1_215, 4_050, 4_860));
    for (n_t, n_s) in [(6, 4), (1, 3), (usize::MAX, usize::MAX)] {
        assert_eq!(foliated_hypercubic(n_t, n_s).unwrap_err(), Refusal::LatticeSize);
    }
}

#[test]
fn the_ratio_at_its_limit() {
    let limit = 1.0 + 1e-12;
    assert_eq!(compute_dihedral(-limit, 1.0, 1.0), (0.0, Spacelike));
    assert_eq!(compute_dihedral(-limit.next_up(), 1.0, 1.0).1, Timelike);
}

#[test]
fn the_programs_example() {
    let complex = Complex::from_pentachorons(5, &[[0, 1, 2, 3, 4]]).unwrap();
    let lengths = [0.0; 10];
    let signs = length_signs(&lengths);
    assert_eq!((signs.timelike, signs.null, signs.spacelike), (0, 10, 0));
    let hinges = lorentzian_deficit_angles(&complex, &lengths).unwrap();
    assert_eq!(hinges.len(), 10);
    assert!(hinges.iter().all(|&(deficit, kind)| deficit.to_bits() == 0x4019_21fb_5444_2d18 && kind == Spacelike));
    let grad = lorentzian_regge_action_grad(&complex, &lengths).unwrap();
    assert!(grad.len() == 10 && grad.iter().all(|entry| entry.to_bits() == 0));
}
