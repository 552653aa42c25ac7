//! The geometry of one pentachoron. Its ten squared lengths are those of the edges 01, 02, 03, 04, 12, 13, 14, 23, 24, 34: timelike
//! below zero, null zero, spacelike above.
use crate::ffi;
use crate::refusal::{Refusal, answered};

/// A squared length with its sign.
pub type SignedLengthSq = f64;

/// The kind of a hinge or of a dihedral.
#[derive(Debug, Clone, Copy, PartialEq, Eq, Hash)]
pub enum HingeType {
    /// The number is an angle: the deficit is 2π less the angles.
    Spacelike,
    /// The number is a boost: the deficit is the boosts' sum with its sign turned.
    Timelike,
}

impl HingeType {
    /// The kind that a byte of the library stands for: 0 or 1.
    pub(crate) fn from_byte(byte: u8) -> HingeType {
        if byte == 0 { HingeType::Spacelike } else { HingeType::Timelike }
    }

    /// The byte that stands for the kind in the library.
    pub(crate) fn byte(self) -> u8 {
        match self {
            HingeType::Spacelike => 0,
            HingeType::Timelike => 1,
        }
    }
}

/// The Cayley-Menger matrix of ten squared lengths; its row 0 and column 0 are the border of ones.
///
/// ```
/// let m = cjapthumi::lorentzian::cm_matrix_signed(&[-1.0, 1.0, 1.0, 1.0, 0.0, 0.0, 0.0, 2.0, 2.0, 2.0]);
/// assert_eq!(m[1], [1.0, 0.0, -1.0, 1.0, 1.0, 1.0]);
/// ```
pub fn cm_matrix_signed(sq_lengths: &[f64; 10]) -> [[f64; 6]; 6] {
    let mut m = [[0.0; 6]; 6];
    unsafe { ffi::cjapthumi_cm_matrix_signed(sq_lengths.as_ptr(), m.as_flattened_mut().as_mut_ptr()) };
    m
}

/// The matrix's cofactors at rows and columns 1 to 5: (1,1), (1,2) to (1,5), (2,2) to (2,5) and so on to (5,5). They are exact where
/// all lengths are whole numbers up to 32,768 in size.
///
/// ```
/// let c = cjapthumi::lorentzian::cm_cofactors(&[1.0; 10]);
/// assert_eq!((c[0], c[1], c[14]), (4.0, -1.0, 4.0));
/// ```
pub fn cm_cofactors(sq_lengths: &[f64; 10]) -> [f64; 15] {
    let mut cofactors = [0.0; 15];
    unsafe { ffi::cjapthumi_cm_cofactors(sq_lengths.as_ptr(), cofactors.as_mut_ptr()) };
    cofactors
}

/// The squared area of a triangle: negative where the triangle is timelike.
///
/// ```
/// assert_eq!(cjapthumi::lorentzian::triangle_area_sq_lorentzian(1.0, 1.0, 1.0), 3.0 / 16.0);
/// ```
pub fn triangle_area_sq_lorentzian(s01: f64, s02: f64, s12: f64) -> f64 {
    ffi::cjapthumi_triangle_area_sq_lorentzian(s01, s02, s12)
}

/// The derivatives of a triangle's squared area by its three squared lengths.
///
/// ```
/// assert_eq!(cjapthumi::lorentzian::triangle_area_sq_grad(1.0, 1.0, 1.0), [0.125; 3]);
/// ```
pub fn triangle_area_sq_grad(s01: f64, s02: f64, s12: f64) -> [f64; 3] {
    let mut grad = [0.0; 3];
    unsafe { ffi::cjapthumi_triangle_area_sq_grad(s01, s02, s12, grad.as_mut_ptr()) };
    grad
}

/// The derivatives of the squared area of a pentachoron's triangle by the ten squared lengths; the triangle's three vertices come in
/// any order.
///
/// ```
/// use cjapthumi::lorentzian::tri_area_sq_grad_in_pent;
///
/// let grad = tri_area_sq_grad_in_pent(&[1.0; 10], [0, 1, 2])?;
/// assert_eq!(grad, [0.125, 0.125, 0.0, 0.0, 0.125, 0.0, 0.0, 0.0, 0.0, 0.0]);
/// # Ok::<(), cjapthumi::Refusal>(())
/// ```
///
/// # Errors
/// [`Refusal::BadIndex`] where a vertex is above 4 or two are the same.
pub fn tri_area_sq_grad_in_pent(sq_lengths: &[f64; 10], tri_local: [usize; 3]) -> Result<[f64; 10], Refusal> {
    let mut grad = [0.0; 10];
    answered(unsafe {
        ffi::cjapthumi_tri_area_sq_grad_in_pent(sq_lengths.as_ptr(), tri_local.as_ptr(), grad.as_mut_ptr())
    })?;
    Ok(grad)
}

/// The dihedral at the triangle opposite the edge of the vertices l and m, by the rule of the Jacobian: a root below 1e-30 gives 0,
/// Spacelike where the product of the two cofactors is positive, else Timelike.
///
/// ```
/// use cjapthumi::lorentzian::{HingeType, lorentzian_dihedral};
///
/// assert_eq!(lorentzian_dihedral(&[0.0; 10], 0, 1), Ok((0.0, HingeType::Timelike)));
/// assert!(lorentzian_dihedral(&[0.0; 10], 1, 1).is_err());
/// ```
///
/// # Errors
/// [`Refusal::BadIndex`] where l or m is above 4 or they are the same.
pub fn lorentzian_dihedral(sq_lengths: &[f64; 10], l: usize, m: usize) -> Result<(f64, HingeType), Refusal> {
    let (mut value, mut kind) = (0.0, 0);
    answered(unsafe { ffi::cjapthumi_lorentzian_dihedral(sq_lengths.as_ptr(), l, m, &mut value, &mut kind) })?;
    Ok((value, HingeType::from_byte(kind)))
}

/// These dihedrals for the ten pairs l, m in the order of the edges.
///
/// ```
/// use cjapthumi::lorentzian::{HingeType, all_lorentzian_dihedrals};
///
/// let dihedrals = all_lorentzian_dihedrals(&[1.0; 10]);
/// assert!(dihedrals.iter().all(|&(angle, kind)| (angle.cos() - 0.25).abs() < 1e-15 && kind == HingeType::Spacelike));
/// ```
pub fn all_lorentzian_dihedrals(sq_lengths: &[f64; 10]) -> [(f64, HingeType); 10] {
    let (mut values, mut kinds) = ([0.0; 10], [0; 10]);
    unsafe {
        ffi::cjapthumi_all_lorentzian_dihedrals(sq_lengths.as_ptr(), values.as_mut_ptr(), kinds.as_mut_ptr());
    }
    std::array::from_fn(|pair| (values[pair], HingeType::from_byte(kinds[pair])))
}

/// Their derivatives by central differences with the step eps: that of dihedral k by squared length e at `[k][e]`.
///
/// ```
/// let jac = cjapthumi::lorentzian::all_lorentzian_dihedrals_jacobian(&[1.0; 10], 1e-6);
/// assert!(jac.as_flattened().iter().all(|entry| entry.is_finite()));
/// ```
pub fn all_lorentzian_dihedrals_jacobian(sq_lengths: &[f64; 10], eps: f64) -> [[f64; 10]; 10] {
    let mut jac = [[0.0; 10]; 10];
    unsafe {
        ffi::cjapthumi_all_lorentzian_dihedrals_jacobian(sq_lengths.as_ptr(), eps, jac.as_flattened_mut().as_mut_ptr());
    }
    jac
}
