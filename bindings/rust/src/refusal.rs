//! Why a call is refused.
use std::error::Error;
use std::fmt;

/// The condition that a refused call breaks; where it breaks several, the first in the order in which they are checked.
///
/// Later versions may have more conditions.
///
/// ```
/// use cjapthumi::{Complex, Refusal};
///
/// let refusal = Complex::from_pentachorons(5, &[[0, 1, 2, 3, 4], [0, 1, 2, 3, 5]]).unwrap_err();
/// assert_eq!(refusal, Refusal::VertexTooLarge(1));
/// assert_eq!((refusal.number(), refusal.place()), (3, 1));
/// assert_eq!(refusal.to_string(), "refusal 3: pentachoron 1 has a vertex that is not below the vertex count");
/// ```
#[derive(Debug, Clone, Copy, PartialEq, Eq, Hash)]
#[non_exhaustive]
pub enum Refusal {
    /// 1: the vertex count is 0 or above 4,096.
    VertexCount,
    /// 2: there are more than 8,192 pentachorons.
    ListLength,
    /// 3: a vertex of this pentachoron is not below the vertex count.
    VertexTooLarge(usize),
    /// 4: this pentachoron has a vertex twice.
    RepeatedVertex(usize),
    /// 5: a table or an output has too few places; here, a retouched table has fewer records than there are triangles.
    ShortRoom,
    /// 6: a lattice's `n_t` or `n_s` is not from 2 to 8, or `n_t * n_s^3` is above 341.
    LatticeSize,
    /// 7: counts or lists are not those of a built complex. No call of this crate meets it: its complexes are built.
    NotBuilt,
    /// 8: the number of squared lengths is not the number of edges.
    LengthCount,
    /// 9: an edge number is not below the number of edges.
    EdgeTooLarge,
    /// 10: a free edge is given twice.
    RepeatedEdge,
    /// 11: a row, a column, a vertex of a pentachoron or a triangle number is out of range, or two vertices are the same.
    BadIndex,
    /// 12, of the program `regge`, met by no call of this crate: its input is cut short, has a pad bit set, or does not end with its
    /// lengths.
    BadInput,
    /// 13, of the program `regge`, met by no call of this crate: its input has more than 64 pentachorons.
    TooManyPentachorons,
}

impl Refusal {
    /// The refusal of a number and a place, as the program prints them: `refused N P`.
    ///
    /// ```
    /// use cjapthumi::Refusal;
    ///
    /// assert_eq!(Refusal::from_number(4, 17), Some(Refusal::RepeatedVertex(17)));
    /// assert_eq!(Refusal::from_number(0, 0), None);
    /// ```
    pub fn from_number(number: u32, place: usize) -> Option<Refusal> {
        Some(match number {
            1 => Refusal::VertexCount,
            2 => Refusal::ListLength,
            3 => Refusal::VertexTooLarge(place),
            4 => Refusal::RepeatedVertex(place),
            5 => Refusal::ShortRoom,
            6 => Refusal::LatticeSize,
            7 => Refusal::NotBuilt,
            8 => Refusal::LengthCount,
            9 => Refusal::EdgeTooLarge,
            10 => Refusal::RepeatedEdge,
            11 => Refusal::BadIndex,
            12 => Refusal::BadInput,
            13 => Refusal::TooManyPentachorons,
            _ => return None,
        })
    }

    /// The number of the condition.
    pub fn number(self) -> u32 {
        match self {
            Refusal::VertexCount => 1,
            Refusal::ListLength => 2,
            Refusal::VertexTooLarge(_) => 3,
            Refusal::RepeatedVertex(_) => 4,
            Refusal::ShortRoom => 5,
            Refusal::LatticeSize => 6,
            Refusal::NotBuilt => 7,
            Refusal::LengthCount => 8,
            Refusal::EdgeTooLarge => 9,
            Refusal::RepeatedEdge => 10,
            Refusal::BadIndex => 11,
            Refusal::BadInput => 12,
            Refusal::TooManyPentachorons => 13,
        }
    }

    /// The number of the pentachoron that is at fault in a refusal 3 or 4, else 0.
    pub fn place(self) -> usize {
        match self {
            Refusal::VertexTooLarge(pentachoron) | Refusal::RepeatedVertex(pentachoron) => pentachoron,
            _ => 0,
        }
    }
}

impl fmt::Display for Refusal {
    fn fmt(&self, f: &mut fmt::Formatter<'_>) -> fmt::Result {
        write!(f, "refusal {}: ", self.number())?;
        match self {
            Refusal::VertexCount => write!(f, "the vertex count is 0 or above 4,096"),
            Refusal::ListLength => write!(f, "there are more than 8,192 pentachorons"),
            Refusal::VertexTooLarge(pentachoron) => {
                write!(f, "pentachoron {pentachoron} has a vertex that is not below the vertex count")
            }
            Refusal::RepeatedVertex(pentachoron) => write!(f, "pentachoron {pentachoron} has a vertex twice"),
            Refusal::ShortRoom => write!(f, "a table or an output has too few places"),
            Refusal::LatticeSize => {
                write!(f, "the lattice's n_t or n_s is not from 2 to 8, or its n_t * n_s^3 is above 341")
            }
            Refusal::NotBuilt => write!(f, "the counts or lists are not those of a built complex"),
            Refusal::LengthCount => write!(f, "the number of squared lengths is not the number of edges"),
            Refusal::EdgeTooLarge => write!(f, "an edge number is not below the number of edges"),
            Refusal::RepeatedEdge => write!(f, "a free edge is given twice"),
            Refusal::BadIndex => write!(
                f,
                "a row, a column, a vertex of a pentachoron or a triangle number is out of range, or two vertices are the same"
            ),
            Refusal::BadInput => {
                write!(f, "the input is cut short, has a pad bit set, or does not end with its lengths")
            }
            Refusal::TooManyPentachorons => write!(f, "the input has more than 64 pentachorons"),
        }
    }
}

impl Error for Refusal {}

/// What a call of the library says by its number: 0, or a refusal with place 0.
pub(crate) fn answered(number: u32) -> Result<(), Refusal> {
    answered_at(number, 0)
}

/// What a call of the library says by its number and its place.
pub(crate) fn answered_at(number: u32, place: usize) -> Result<(), Refusal> {
    match number {
        0 => Ok(()),
        _ => Err(Refusal::from_number(number, place).expect("the library refuses with the numbers 1 to 11")),
    }
}
