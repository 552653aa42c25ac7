//! One length changed, and the table of hinges brought up to date.
use crate::complex::{Complex, EdgeNumber, narrowed};
use crate::ffi;
use crate::hinge_table::HingeTable;
use crate::refusal::{Refusal, answered};

/// Stores a squared length at an edge and works out anew the record of each triangle of each pentachoron that contains the edge; all
/// other lengths and records stay as they are.
///
/// So a table that was worked out from the lengths before is the one worked out anew from the lengths after. The table may have more
/// records than there are triangles; those are kept.
///
/// ```
/// use cjapthumi::Complex;
/// use cjapthumi::complex::EdgeNumber;
/// use cjapthumi::hinge_table::HingeTable;
/// use cjapthumi::retouch::retouch;
///
/// let complex = Complex::from_pentachorons(6, &[[0, 1, 2, 3, 4], [1, 2, 3, 4, 5]])?;
/// let mut lengths = vec![1.0; complex.n_edges()];
/// let mut table = HingeTable::worked_out(&complex, &lengths)?;
/// retouch(&complex, &mut lengths, EdgeNumber(3), -0.5, &mut table)?;
/// assert_eq!(lengths[3], -0.5);
/// assert_eq!(table, HingeTable::worked_out(&complex, &lengths)?);
/// # Ok::<(), cjapthumi::Refusal>(())
/// ```
///
/// # Errors
/// [`Refusal::LengthCount`], [`Refusal::EdgeTooLarge`], [`Refusal::ShortRoom`] where the table has fewer records than there are
/// triangles; lengths and table are then as they were.
pub fn retouch(
    complex: &Complex,
    sq_lengths: &mut [f64],
    edge: EdgeNumber,
    sq_length: f64,
    table: &mut HingeTable,
) -> Result<(), Refusal> {
    answered(unsafe {
        ffi::retouch_built(
            complex.built(),
            sq_lengths.as_mut_ptr(),
            sq_lengths.len(),
            narrowed(edge.0),
            sq_length,
            table.deficits.as_mut_ptr(),
            table.deficits.len(),
            table.kinds.as_mut_ptr(),
            table.kinds.len(),
        )
    })
}
