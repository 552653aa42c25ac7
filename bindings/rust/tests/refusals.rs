//! Every refusal that a call can meet, the order of the checks, and that a refused call changes nothing.
use cjapthumi::complex::{EdgeNumber, TriangleNumber};
use cjapthumi::foliation::foliated_hypercubic;
use cjapthumi::geometry::cofactor_6x6;
use cjapthumi::hinge_table::HingeTable;
use cjapthumi::lorentzian::{lorentzian_dihedral, tri_area_sq_grad_in_pent};
use cjapthumi::lorentzian_regge::{
    local_deficit_angles, local_lorentzian_regge_action_grad, local_lorentzian_regge_hessian, lorentzian_deficit_angle,
    lorentzian_deficit_angles, lorentzian_regge_action, lorentzian_regge_action_grad,
};
use cjapthumi::retouch::retouch;
use cjapthumi::{Complex, Refusal};

/// Two pentachorons with a common tet: 14 edges, 16 triangles.
fn complex() -> Complex {
    Complex::from_pentachorons(6, &[[0, 1, 2, 3, 4], [1, 2, 3, 4, 5]]).unwrap()
}

/// The refusal of the builder.
fn refused(n_vertices: usize, pents: &[[usize; 5]]) -> Refusal {
    Complex::from_pentachorons(n_vertices, pents).unwrap_err()
}

#[test]
fn the_builder() {
    let good = [0, 1, 2, 3, 4];
    assert_eq!(refused(0, &[]), Refusal::VertexCount);
    assert_eq!(refused(4_097, &vec![good; 8_193]), Refusal::VertexCount);
    assert_eq!(refused(5, &vec![[9; 5]; 8_193]), Refusal::ListLength);
    assert_eq!(refused(5, &[good, [0, 0, 1, 2, 5]]), Refusal::VertexTooLarge(1));
    assert_eq!(refused(5, &[good, good, [0, 0, 1, 2, 3], [0, 1, 2, 3, 5]]), Refusal::RepeatedVertex(2));
    assert_eq!(refused(5, &[[0, 1, 2, 3, 1 << 32]]), Refusal::VertexTooLarge(0));
    assert_eq!(refused(5, &[[0, usize::MAX, usize::MAX, 2, 3]]), Refusal::VertexTooLarge(0));
    assert_eq!(Complex::from_pentachorons(4_096, &[]).unwrap().n_edges(), 0);
}

#[test]
fn lattices() {
    for size in [(1, 2), (2, 1), (9, 2), (2, 9), (6, 4), (0, 0), (usize::MAX, 2), (2, usize::MAX), (1 << 63, 1 << 63)] {
        assert_eq!(foliated_hypercubic(size.0, size.1).unwrap_err(), Refusal::LatticeSize, "{size:?}");
    }
}

#[test]
fn a_wrong_number_of_lengths() {
    let complex = complex();
    for count in [0, 13, 15, 28] {
        let lengths = vec![1.0; count];
        assert_eq!(lorentzian_deficit_angles(&complex, &lengths), Err(Refusal::LengthCount));
        assert_eq!(lorentzian_deficit_angle(&complex, &lengths, TriangleNumber(99)), Err(Refusal::LengthCount));
        assert_eq!(lorentzian_regge_action(&complex, &lengths), Err(Refusal::LengthCount));
        assert_eq!(lorentzian_regge_action_grad(&complex, &lengths), Err(Refusal::LengthCount));
        assert_eq!(local_deficit_angles(&complex, &lengths, &[99]), Err(Refusal::LengthCount));
        assert_eq!(local_lorentzian_regge_action_grad(&complex, &lengths, &[]), Err(Refusal::LengthCount));
        assert_eq!(local_lorentzian_regge_hessian(&complex, &lengths, &[3, 3], 1e-6), Err(Refusal::LengthCount));
    }
}

#[test]
fn free_edges() {
    let (complex, lengths) = (complex(), [1.0; 14]);
    let many: Vec<usize> = (0..15).map(|edge| edge % 14).collect();
    let cases: [(&[usize], Refusal); 5] = [
        (&[14], Refusal::EdgeTooLarge),
        (&[3, 3, usize::MAX], Refusal::EdgeTooLarge),
        (&[1 << 32], Refusal::EdgeTooLarge),
        (&[5, 2, 5], Refusal::RepeatedEdge),
        (&many, Refusal::RepeatedEdge),
    ];
    for (free, refusal) in cases {
        assert_eq!(local_deficit_angles(&complex, &lengths, free), Err(refusal));
        assert_eq!(local_lorentzian_regge_action_grad(&complex, &lengths, free), Err(refusal));
        assert_eq!(local_lorentzian_regge_hessian(&complex, &lengths, free, 1e-6), Err(refusal));
    }
}

#[test]
fn no_free_edges() {
    let (complex, lengths) = (complex(), [1.0; 14]);
    assert!(local_deficit_angles(&complex, &lengths, &[]).unwrap().is_empty());
    assert!(local_lorentzian_regge_action_grad(&complex, &lengths, &[]).unwrap().is_empty());
    assert_eq!(local_lorentzian_regge_hessian(&complex, &lengths, &[], 1e-6).unwrap().nrows(), 0);
}

#[test]
fn numbers_out_of_range() {
    let (complex, s) = (complex(), [1.0; 10]);
    for tri in [16, 1 << 32, usize::MAX] {
        assert_eq!(lorentzian_deficit_angle(&complex, &[1.0; 14], TriangleNumber(tri)), Err(Refusal::BadIndex));
    }
    assert_eq!(cofactor_6x6(&[[1.0; 6]; 6], 6, 0), Err(Refusal::BadIndex));
    assert_eq!(lorentzian_dihedral(&s, 0, 5), Err(Refusal::BadIndex));
    assert_eq!(lorentzian_dihedral(&s, 2, 2), Err(Refusal::BadIndex));
    assert_eq!(tri_area_sq_grad_in_pent(&s, [0, 1, 1]), Err(Refusal::BadIndex));
}

#[test]
fn a_refused_retouch_changes_nothing() {
    let complex = complex();
    let table = HingeTable::worked_out(&complex, &[1.0; 14]).unwrap();
    let short: HingeTable = table.iter().take(15).collect();
    let cases = [
        (13, EdgeNumber(14), &short, Refusal::LengthCount),
        (14, EdgeNumber(14), &short, Refusal::EdgeTooLarge),
        (14, EdgeNumber(1 << 32), &table, Refusal::EdgeTooLarge),
        (14, EdgeNumber(usize::MAX), &table, Refusal::EdgeTooLarge),
        (14, EdgeNumber(0), &short, Refusal::ShortRoom),
    ];
    for (count, edge, before, refusal) in cases {
        let (mut lengths, mut after) = (vec![1.0; count], before.clone());
        assert_eq!(retouch(&complex, &mut lengths, edge, 0.5, &mut after), Err(refusal));
        assert_eq!((lengths, &after), (vec![1.0; count], before));
    }
}

#[test]
fn every_refusal_has_its_number_and_a_message_of_its_own() {
    let refusals: Vec<Refusal> = (1..=13).map(|number| Refusal::from_number(number, 7).unwrap()).collect();
    for (number, refusal) in (1..).zip(&refusals) {
        assert_eq!((refusal.number(), refusal.place()), (number, if [3, 4].contains(&number) { 7 } else { 0 }));
        assert!(refusal.to_string().starts_with(&format!("refusal {number}: ")));
    }
    let mut messages: Vec<String> =
        refusals.iter().map(|refusal| refusal.to_string().split_once(": ").unwrap().1.to_string()).collect();
    messages.sort();
    messages.dedup();
    assert_eq!(messages.len(), 13);
    assert_eq!([Refusal::from_number(0, 0), Refusal::from_number(14, 0)], [None; 2]);
}
