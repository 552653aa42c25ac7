//! The table of all hinges of a complex.
use crate::complex::{Complex, TriangleNumber};
use crate::ffi;
use crate::lorentzian::HingeType;
use crate::refusal::{Refusal, answered};

/// A record for each triangle, ascending: its deficit and its kind.
///
/// Two tables are equal where they have the same kinds and equal deficits: the same bits, or NaN in both.
///
/// ```
/// use cjapthumi::Complex;
/// use cjapthumi::complex::TriangleNumber;
/// use cjapthumi::hinge_table::HingeTable;
/// use cjapthumi::lorentzian::HingeType;
///
/// let complex = Complex::from_pentachorons(5, &[[0, 1, 2, 3, 4]])?;
/// let table = HingeTable::worked_out(&complex, &[0.0; 10])?;
/// assert_eq!(table.get(TriangleNumber(9)), Some((2.0 * std::f64::consts::PI, HingeType::Spacelike)));
/// assert_eq!(table.get(TriangleNumber(10)), None);
/// # Ok::<(), cjapthumi::Refusal>(())
/// ```
#[derive(Debug, Clone)]
pub struct HingeTable {
    pub(crate) deficits: Vec<f64>,
    pub(crate) kinds: Vec<u8>,
}

impl HingeTable {
    /// The table worked out anew from squared lengths.
    ///
    /// # Errors
    /// [`Refusal::LengthCount`].
    pub fn worked_out(complex: &Complex, sq_lengths: &[f64]) -> Result<HingeTable, Refusal> {
        let (mut deficits, mut kinds) = (vec![0.0; complex.n_triangles()], vec![0; complex.n_triangles()]);
        answered(unsafe {
            ffi::lorentzian_deficit_angles_built(
                complex.built(),
                sq_lengths.as_ptr(),
                sq_lengths.len(),
                deficits.as_mut_ptr(),
                deficits.len(),
                kinds.as_mut_ptr(),
                kinds.len(),
            )
        })?;
        Ok(HingeTable { deficits, kinds })
    }

    /// How many records there are.
    pub fn len(&self) -> usize {
        self.deficits.len()
    }

    /// Whether there are none.
    pub fn is_empty(&self) -> bool {
        self.deficits.is_empty()
    }

    /// A triangle's deficit and kind, if the table has its record.
    pub fn get(&self, tri: TriangleNumber) -> Option<(f64, HingeType)> {
        Some((*self.deficits.get(tri.0)?, HingeType::from_byte(self.kinds[tri.0])))
    }

    /// The records, ascending by triangle.
    pub fn iter(&self) -> impl ExactSizeIterator<Item = (f64, HingeType)> {
        self.deficits.iter().zip(&self.kinds).map(|(&deficit, &kind)| (deficit, HingeType::from_byte(kind)))
    }

    /// The deficits, ascending by triangle.
    pub fn deficits(&self) -> &[f64] {
        &self.deficits
    }
}

impl FromIterator<(f64, HingeType)> for HingeTable {
    /// The table of these records, whatever they are worked out from.
    fn from_iter<I: IntoIterator<Item = (f64, HingeType)>>(records: I) -> HingeTable {
        let (deficits, kinds) = records.into_iter().map(|(deficit, kind)| (deficit, kind.byte())).unzip();
        HingeTable { deficits, kinds }
    }
}

impl PartialEq for HingeTable {
    fn eq(&self, other: &HingeTable) -> bool {
        let equal = |(a, b): (&f64, &f64)| a.to_bits() == b.to_bits() || (a.is_nan() && b.is_nan());
        self.kinds == other.kinds && self.deficits.iter().zip(&other.deficits).all(equal)
    }
}

impl Eq for HingeTable {}
