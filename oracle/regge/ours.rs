//! Our library: each call on buffers that hold a pattern before it, with a guard on either side.
use crate::ffi::{
    cjapthumi_all_lorentzian_dihedrals, cjapthumi_all_lorentzian_dihedrals_jacobian, cjapthumi_cm_cofactors,
    cjapthumi_cm_matrix_signed, cjapthumi_cofactor_6x6, cjapthumi_compute_dihedral, cjapthumi_lorentzian_dihedral,
    cjapthumi_tri_area_sq_grad_in_pent, cjapthumi_triangle_area_sq_grad, cjapthumi_triangle_area_sq_lorentzian,
};
use std::sync::atomic::{AtomicBool, Ordering};

/// What a buffer of numbers holds before a call.
pub const VALUE_PATTERN: f64 = f64::from_bits(0x5a5a_5a5a_5a5a_5a5a);

/// What a buffer of kinds holds before a call.
pub const KIND_PATTERN: u8 = 0x5a;

/// Whether a call wrote next to a buffer.
static STRAYED: AtomicBool = AtomicBool::new(false);

/// Whether a call wrote next to a buffer since this was last asked.
pub fn has_strayed() -> bool {
    STRAYED.load(Ordering::Relaxed) && STRAYED.swap(false, Ordering::Relaxed)
}

/// A buffer between two guards.
#[repr(C)]
struct Guarded<T, const N: usize> {
    before: [T; 4],
    buffer: [T; N],
    after: [T; 4],
}

impl<T: Copy + PartialEq, const N: usize> Guarded<T, N> {
    /// A buffer and guards that hold the pattern.
    fn new(pattern: T) -> Self {
        Guarded { before: [pattern; 4], buffer: [pattern; N], after: [pattern; 4] }
    }

    /// The buffer's address, taken from the whole's, so that a stray write is seen.
    fn start(&mut self) -> *mut T {
        (&raw mut *self).cast::<T>().wrapping_add(4)
    }

    /// The buffer after a call.
    fn end(self, pattern: T) -> [T; N] {
        if self.before != [pattern; 4] || self.after != [pattern; 4] {
            STRAYED.store(true, Ordering::Relaxed);
        }
        self.buffer
    }
}

/// Makes a call on a buffer of numbers; what it gives back, and the buffer.
fn filled<R, const N: usize>(call: impl FnOnce(*mut f64) -> R) -> (R, [f64; N]) {
    let mut values = Guarded::new(VALUE_PATTERN);
    let result = call(values.start());
    (result, values.end(VALUE_PATTERN))
}

/// Makes a call on a buffer of numbers and one of kinds; what it gives back, and each number with its kind.
fn filled_angles<R, const N: usize>(call: impl FnOnce(*mut f64, *mut u8) -> R) -> (R, [(f64, u8); N]) {
    let mut kinds = Guarded::<u8, N>::new(KIND_PATTERN);
    let (result, values) = filled::<R, N>(|values| call(values, kinds.start()));
    let kinds = kinds.end(KIND_PATTERN);
    (result, std::array::from_fn(|i| (values[i], kinds[i])))
}

/// The refusal's number or 0, and the cofactor.
pub fn cofactor_6x6(m: &[[f64; 6]; 6], row: usize, col: usize) -> (u32, [f64; 1]) {
    filled(|value| unsafe { cjapthumi_cofactor_6x6(m.as_ptr().cast(), row, col, value) })
}

/// The Cayley-Menger matrix, row after row.
pub fn cm_matrix_signed(s: &[f64; 10]) -> [f64; 36] {
    filled(|m| unsafe { cjapthumi_cm_matrix_signed(s.as_ptr(), m) }).1
}

/// The fifteen cofactors of rows and columns 1 to 5.
pub fn cm_cofactors(s: &[f64; 10]) -> [f64; 15] {
    filled(|c| unsafe { cjapthumi_cm_cofactors(s.as_ptr(), c) }).1
}

/// The squared area.
pub fn triangle_area_sq_lorentzian(s01: f64, s02: f64, s12: f64) -> f64 {
    cjapthumi_triangle_area_sq_lorentzian(s01, s02, s12)
}

/// The squared area's gradient.
pub fn triangle_area_sq_grad(s01: f64, s02: f64, s12: f64) -> [f64; 3] {
    filled(|grad| unsafe { cjapthumi_triangle_area_sq_grad(s01, s02, s12, grad) }).1
}

/// The refusal's number or 0, and the gradient.
pub fn tri_area_sq_grad_in_pent(s: &[f64; 10], tri: [usize; 3]) -> (u32, [f64; 10]) {
    filled(|grad| unsafe { cjapthumi_tri_area_sq_grad_in_pent(s.as_ptr(), tri.as_ptr(), grad) })
}

/// The dihedral of three cofactors, with its kind.
pub fn compute_dihedral(c_lm: f64, c_ll: f64, c_mm: f64) -> (f64, u8) {
    let (kind, [value]) = filled(|value| unsafe { cjapthumi_compute_dihedral(c_lm, c_ll, c_mm, value) });
    (value, kind)
}

/// The refusal's number or 0, and the dihedral with its kind.
pub fn lorentzian_dihedral(s: &[f64; 10], l: usize, m: usize) -> (u32, [(f64, u8); 1]) {
    filled_angles(|value, kind| unsafe { cjapthumi_lorentzian_dihedral(s.as_ptr(), l, m, value, kind) })
}

/// The ten dihedrals with their kinds.
pub fn all_lorentzian_dihedrals(s: &[f64; 10]) -> [(f64, u8); 10] {
    filled_angles(|values, kinds| unsafe { cjapthumi_all_lorentzian_dihedrals(s.as_ptr(), values, kinds) }).1
}

/// The Jacobian, row after row.
pub fn all_lorentzian_dihedrals_jacobian(s: &[f64; 10], eps: f64) -> [f64; 100] {
    filled(|jac| unsafe { cjapthumi_all_lorentzian_dihedrals_jacobian(s.as_ptr(), eps, jac) }).1
}
