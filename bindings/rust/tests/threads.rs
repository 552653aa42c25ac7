//! Every call answers in threads with Rust's default stack, on complexes of the largest size and on one that threads share.
use cjapthumi::complex::{EdgeNumber, TriangleNumber};
use cjapthumi::foliation::{flat_minkowski_sq_lengths, foliated_hypercubic};
use cjapthumi::hinge_table::HingeTable;
use cjapthumi::lorentzian_regge::{
    local_deficit_angles, local_lorentzian_regge_action_grad, local_lorentzian_regge_hessian, lorentzian_deficit_angle,
    lorentzian_deficit_angles, lorentzian_regge_action, lorentzian_regge_action_grad,
};
use cjapthumi::retouch::retouch;
use cjapthumi::{Complex, Refusal};
use std::thread;

/// 8,192 pentachorons of 4,096 vertices that share few faces.
fn largest() -> Complex {
    let pent = |k: usize| [0, 1, 7, 31, 131].map(|step| (k * 5 + step * (k / 4_096 + 1)) % 4_096);
    Complex::from_pentachorons(4_096, &(0..8_192).map(pent).collect::<Vec<_>>()).unwrap()
}

/// Every call over a complex; the gradient.
fn calls(complex: &Complex, lengths: &[f64]) -> Result<Vec<f64>, Refusal> {
    let free: Vec<usize> = (0..complex.n_edges()).step_by(complex.n_edges() / 50 + 1).collect();
    let hinges = lorentzian_deficit_angles(complex, lengths)?;
    let tri = hinges.len() - 1;
    assert_eq!(complex.tri_index[&complex.triangles[tri]], tri);
    assert_eq!(lorentzian_deficit_angle(complex, lengths, TriangleNumber(tri))?, hinges[tri]);
    assert!(lorentzian_regge_action(complex, lengths)?.is_finite());
    let grad = lorentzian_regge_action_grad(complex, lengths)?;
    for (tri, hinge) in local_deficit_angles(complex, lengths, &free)? {
        assert_eq!(hinge, hinges[tri]);
    }
    let local = local_lorentzian_regge_action_grad(complex, lengths, &free)?;
    assert!(local.iter().zip(&free).all(|(entry, &edge)| entry.to_bits() == grad[edge].to_bits()));
    assert_eq!(local_lorentzian_regge_hessian(complex, lengths, &free, 1e-6)?.nrows(), free.len());
    let (mut lengths, mut table) = (lengths.to_vec(), hinges.into_iter().collect::<HingeTable>());
    retouch(complex, &mut lengths, EdgeNumber(free[1]), 1.25, &mut table)?;
    assert_eq!(table, HingeTable::worked_out(complex, &lengths)?);
    Ok(grad)
}

#[test]
fn the_largest_complexes() {
    let built = thread::spawn(|| {
        let complex = largest();
        assert!(complex.n_edges() > 40_000 && complex.n_triangles() > 60_000);
        calls(&complex, &vec![1.0; complex.n_edges()]).unwrap();
    });
    let lattice = thread::spawn(|| {
        let lattice = foliated_hypercubic(5, 4).unwrap();
        calls(&lattice.complex, &flat_minkowski_sq_lengths(&lattice, 1.0, 0.5)).unwrap();
    });
    built.join().unwrap();
    lattice.join().unwrap();
}

#[test]
fn one_complex_in_many_threads() {
    let lattice = &foliated_hypercubic(3, 3).unwrap();
    let lengths = &flat_minkowski_sq_lengths(lattice, 1.0, 0.5);
    let grads: Vec<Vec<u64>> = thread::scope(|scope| {
        let call = || calls(&lattice.complex, lengths).unwrap().iter().map(|entry| entry.to_bits()).collect();
        let threads: Vec<_> = (0..8).map(|_| scope.spawn(call)).collect();
        threads.into_iter().map(|thread| thread.join().unwrap()).collect()
    });
    assert!(grads.iter().all(|grad| *grad == grads[0]));
}
