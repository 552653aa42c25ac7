//! Determinants.
use crate::ffi;
use crate::refusal::{Refusal, answered};

/// The cofactor of a 6 by 6 matrix at a row and a column.
///
/// ```
/// use cjapthumi::geometry::cofactor_6x6;
/// use cjapthumi::lorentzian::cm_matrix_signed;
///
/// let m = cm_matrix_signed(&[1.0; 10]);
/// assert_eq!(cofactor_6x6(&m, 1, 1), Ok(4.0));
/// assert_eq!(cofactor_6x6(&m, 1, 2), Ok(-1.0));
/// assert!(cofactor_6x6(&m, 1, 6).is_err());
/// ```
///
/// # Errors
/// [`Refusal::BadIndex`] where the row or the column is above 5.
pub fn cofactor_6x6(m: &[[f64; 6]; 6], row: usize, col: usize) -> Result<f64, Refusal> {
    let mut value = 0.0;
    answered(unsafe { ffi::cjapthumi_cofactor_6x6(m.as_flattened().as_ptr(), row, col, &mut value) })?;
    Ok(value)
}
