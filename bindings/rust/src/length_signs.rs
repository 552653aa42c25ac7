//! How many lengths are timelike, null and spacelike.
use crate::ffi;

/// The three counts.
#[derive(Debug, Clone, Copy, PartialEq, Eq, Hash)]
pub struct LengthSigns {
    /// Squared lengths below zero.
    pub timelike: usize,
    /// Zeros of either sign.
    pub null: usize,
    /// All others, NaN included.
    pub spacelike: usize,
}

/// Counts the signs of squared lengths; it refuses nothing.
///
/// ```
/// use cjapthumi::length_signs::{LengthSigns, length_signs};
///
/// let signs = length_signs(&[-1.0, 0.0, -0.0, 2.0, f64::NAN]);
/// assert_eq!(signs, LengthSigns { timelike: 1, null: 2, spacelike: 2 });
/// ```
pub fn length_signs(sq_lengths: &[f64]) -> LengthSigns {
    let mut signs = [0; 3];
    unsafe { ffi::cjapthumi_length_signs(sq_lengths.as_ptr(), sq_lengths.len(), signs.as_mut_ptr()) };
    let [timelike, null, spacelike] = signs;
    LengthSigns { timelike, null, spacelike }
}
