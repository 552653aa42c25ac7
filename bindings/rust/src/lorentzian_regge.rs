//! Deficits, the Regge action and its derivatives. Squared lengths come in edge order, as many as there are edges.
use crate::complex::{Complex, TriangleNumber, narrowed};
use crate::ffi;
use crate::hinge_table::HingeTable;
use crate::lorentzian::HingeType;
use crate::matrix::DMat;
use crate::refusal::{Refusal, answered};
use std::collections::BTreeMap;

// ---- one dihedral ----

/// The dihedral of three cofactors by the rule of the hinges: a product `c_ll * c_mm` below 1e-60 in size gives 0, Spacelike.
///
/// ```
/// use cjapthumi::lorentzian::HingeType;
/// use cjapthumi::lorentzian_regge::compute_dihedral;
///
/// assert_eq!(compute_dihedral(1.0, 0.0, 2.0), (0.0, HingeType::Spacelike));
/// assert_eq!(compute_dihedral(-4.0, 4.0, 4.0), (0.0, HingeType::Spacelike));
/// assert_eq!(compute_dihedral(0.0, 4.0, -4.0).1, HingeType::Timelike);
/// ```
pub fn compute_dihedral(c_lm: f64, c_ll: f64, c_mm: f64) -> (f64, HingeType) {
    let mut value = 0.0;
    let kind = unsafe { ffi::cjapthumi_compute_dihedral(c_lm, c_ll, c_mm, &mut value) };
    (value, HingeType::from_byte(kind))
}

// ---- the whole complex ----

/// The deficit and the kind of each triangle.
///
/// ```
/// use cjapthumi::{Complex, Refusal};
/// use cjapthumi::lorentzian_regge::lorentzian_deficit_angles;
///
/// let complex = Complex::from_pentachorons(5, &[[0, 1, 2, 3, 4]])?;
/// let hinges = lorentzian_deficit_angles(&complex, &[1.0; 10])?;
/// assert_eq!(hinges.len(), complex.n_triangles());
/// assert_eq!(lorentzian_deficit_angles(&complex, &[1.0; 11]), Err(Refusal::LengthCount));
/// # Ok::<(), Refusal>(())
/// ```
///
/// # Errors
/// [`Refusal::LengthCount`].
pub fn lorentzian_deficit_angles(complex: &Complex, sq_lengths: &[f64]) -> Result<Vec<(f64, HingeType)>, Refusal> {
    Ok(HingeTable::worked_out(complex, sq_lengths)?.iter().collect())
}

/// The deficit and the kind of one triangle.
///
/// ```
/// use cjapthumi::Complex;
/// use cjapthumi::complex::TriangleNumber;
/// use cjapthumi::lorentzian_regge::{lorentzian_deficit_angle, lorentzian_deficit_angles};
///
/// let complex = Complex::from_pentachorons(5, &[[0, 1, 2, 3, 4]])?;
/// let hinge = lorentzian_deficit_angle(&complex, &[1.0; 10], TriangleNumber(4))?;
/// assert_eq!(hinge, lorentzian_deficit_angles(&complex, &[1.0; 10])?[4]);
/// # Ok::<(), cjapthumi::Refusal>(())
/// ```
///
/// # Errors
/// [`Refusal::LengthCount`], [`Refusal::BadIndex`] where there is no triangle of that number.
pub fn lorentzian_deficit_angle(
    complex: &Complex,
    sq_lengths: &[f64],
    tri: TriangleNumber,
) -> Result<(f64, HingeType), Refusal> {
    let (mut deficit, mut kind) = (0.0, 0);
    answered(unsafe {
        ffi::lorentzian_deficit_angle_built(
            complex.built(),
            sq_lengths.as_ptr(),
            sq_lengths.len(),
            narrowed(tri.0),
            &mut deficit,
            &mut kind,
        )
    })?;
    Ok((deficit, HingeType::from_byte(kind)))
}

/// The action: the sum of all triangles' areas, each times its deficit.
///
/// ```
/// use cjapthumi::Complex;
/// use cjapthumi::lorentzian_regge::lorentzian_regge_action;
///
/// let complex = Complex::from_pentachorons(5, &[[0, 1, 2, 3, 4]])?;
/// assert_eq!(lorentzian_regge_action(&complex, &[0.0; 10])?, 0.0);
/// # Ok::<(), cjapthumi::Refusal>(())
/// ```
///
/// # Errors
/// [`Refusal::LengthCount`].
pub fn lorentzian_regge_action(complex: &Complex, sq_lengths: &[f64]) -> Result<f64, Refusal> {
    let mut action = 0.0;
    answered(unsafe {
        ffi::lorentzian_regge_action_built(complex.built(), sq_lengths.as_ptr(), sq_lengths.len(), &mut action)
    })?;
    Ok(action)
}

/// The action's derivative by each squared length.
///
/// ```
/// use cjapthumi::Complex;
/// use cjapthumi::lorentzian_regge::lorentzian_regge_action_grad;
///
/// let complex = Complex::from_pentachorons(5, &[[0, 1, 2, 3, 4]])?;
/// let grad = lorentzian_regge_action_grad(&complex, &[1.0; 10])?;
/// assert!(grad.iter().all(|&entry| entry > 0.0));
/// # Ok::<(), cjapthumi::Refusal>(())
/// ```
///
/// # Errors
/// [`Refusal::LengthCount`].
pub fn lorentzian_regge_action_grad(complex: &Complex, sq_lengths: &[f64]) -> Result<Vec<f64>, Refusal> {
    let mut grad = vec![0.0; complex.n_edges()];
    answered(unsafe {
        ffi::lorentzian_regge_action_grad_built(
            complex.built(),
            sq_lengths.as_ptr(),
            sq_lengths.len(),
            grad.as_mut_ptr(),
            grad.len(),
        )
    })?;
    Ok(grad)
}

// ---- free edges ----

/// The deficit and the kind of each triangle on a free edge, by its number.
///
/// ```
/// use cjapthumi::Complex;
/// use cjapthumi::lorentzian_regge::{local_deficit_angles, lorentzian_deficit_angles};
///
/// let complex = Complex::from_pentachorons(5, &[[0, 1, 2, 3, 4]])?;
/// let hinges = lorentzian_deficit_angles(&complex, &[1.0; 10])?;
/// let local = local_deficit_angles(&complex, &[1.0; 10], &[0])?;
/// assert!(local.keys().eq(&complex.edge_to_tris[0]));
/// assert!(local.iter().all(|(&tri, &hinge)| hinge == hinges[tri]));
/// # Ok::<(), cjapthumi::Refusal>(())
/// ```
///
/// # Errors
/// [`Refusal::LengthCount`], [`Refusal::EdgeTooLarge`], [`Refusal::RepeatedEdge`].
pub fn local_deficit_angles(
    complex: &Complex,
    sq_lengths: &[f64],
    free_edges: &[usize],
) -> Result<BTreeMap<usize, (f64, HingeType)>, Refusal> {
    let on_edges = free_edges.iter().filter_map(|&edge| complex.edge_to_tris.get(edge)).map(Vec::len);
    let room = on_edges.sum::<usize>().min(complex.n_triangles());
    let (mut tris, mut deficits, mut kinds, mut count) = (vec![0; room], vec![0.0; room], vec![0; room], 0);
    let free_edges = all_narrowed(free_edges);
    answered(unsafe {
        ffi::local_deficit_angles_built(
            complex.built(),
            sq_lengths.as_ptr(),
            sq_lengths.len(),
            free_edges.as_ptr(),
            free_edges.len(),
            tris.as_mut_ptr(),
            tris.len(),
            deficits.as_mut_ptr(),
            deficits.len(),
            kinds.as_mut_ptr(),
            kinds.len(),
            &mut count,
        )
    })?;
    let record = |k: usize| (tris[k] as usize, (deficits[k], HingeType::from_byte(kinds[k])));
    Ok((0..count).map(record).collect())
}

/// The gradient's entry of each free edge, in their order: the same bits as in [`lorentzian_regge_action_grad`].
///
/// ```
/// use cjapthumi::{Complex, Refusal};
/// use cjapthumi::lorentzian_regge::{local_lorentzian_regge_action_grad, lorentzian_regge_action_grad};
///
/// let complex = Complex::from_pentachorons(5, &[[0, 1, 2, 3, 4]])?;
/// let grad = lorentzian_regge_action_grad(&complex, &[1.0; 10])?;
/// assert_eq!(local_lorentzian_regge_action_grad(&complex, &[1.0; 10], &[6, 2])?, [grad[6], grad[2]]);
/// let twice = local_lorentzian_regge_action_grad(&complex, &[1.0; 10], &[6, 6]);
/// assert_eq!(twice, Err(Refusal::RepeatedEdge));
/// # Ok::<(), Refusal>(())
/// ```
///
/// # Errors
/// [`Refusal::LengthCount`], [`Refusal::EdgeTooLarge`], [`Refusal::RepeatedEdge`].
pub fn local_lorentzian_regge_action_grad(
    complex: &Complex,
    sq_lengths: &[f64],
    free_edges: &[usize],
) -> Result<Vec<f64>, Refusal> {
    let mut grad = vec![0.0; free_edges.len()];
    let free_edges = all_narrowed(free_edges);
    answered(unsafe {
        ffi::local_lorentzian_regge_action_grad_built(
            complex.built(),
            sq_lengths.as_ptr(),
            sq_lengths.len(),
            free_edges.as_ptr(),
            free_edges.len(),
            grad.as_mut_ptr(),
            grad.len(),
        )
    })?;
    Ok(grad)
}

/// The Hessian of the action at the free edges, rows and columns in their order; dihedrals are differentiated by central differences
/// with the step `fd_eps`.
///
/// ```
/// use cjapthumi::Complex;
/// use cjapthumi::lorentzian_regge::local_lorentzian_regge_hessian;
///
/// let complex = Complex::from_pentachorons(5, &[[0, 1, 2, 3, 4]])?;
/// let hessian = local_lorentzian_regge_hessian(&complex, &[1.0; 10], &[0, 7], 1e-6)?;
/// assert_eq!((hessian.nrows(), hessian.ncols()), (2, 2));
/// assert!((hessian[(0, 1)] - hessian[(1, 0)]).abs() < 1e-8);
/// # Ok::<(), cjapthumi::Refusal>(())
/// ```
///
/// # Errors
/// [`Refusal::LengthCount`], [`Refusal::EdgeTooLarge`], [`Refusal::RepeatedEdge`].
pub fn local_lorentzian_regge_hessian(
    complex: &Complex,
    sq_lengths: &[f64],
    free_edges: &[usize],
    fd_eps: f64,
) -> Result<DMat, Refusal> {
    // More free edges than edges are refused before the room is looked at.
    let size = if free_edges.len() <= complex.n_edges() { free_edges.len() } else { 0 };
    let mut entries = vec![0.0; size * size];
    let free_edges = all_narrowed(free_edges);
    answered(unsafe {
        ffi::local_lorentzian_regge_hessian_built(
            complex.built(),
            sq_lengths.as_ptr(),
            sq_lengths.len(),
            free_edges.as_ptr(),
            free_edges.len(),
            fd_eps,
            entries.as_mut_ptr(),
            entries.len(),
        )
    })?;
    Ok(DMat::from_rows(size, entries))
}

/// Edge numbers as the library takes them.
fn all_narrowed(edges: &[usize]) -> Vec<u32> {
    edges.iter().map(|&edge| narrowed(edge)).collect()
}
