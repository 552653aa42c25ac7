//! Square matrices of doubles.
use std::ops::{Index, IndexMut};

/// A square matrix; its entry in row i and column j is `matrix[(i, j)]`, which panics outside the matrix.
///
/// phyz_math has it from its rows: `DMat::from_row_slice(h.nrows(), h.ncols(), h.as_row_slice())`.
#[derive(Debug, Clone, PartialEq)]
pub struct DMat {
    size: usize,
    entries: Vec<f64>,
}

impl DMat {
    /// The matrix of this size whose entries stand row after row.
    pub(crate) fn from_rows(size: usize, entries: Vec<f64>) -> DMat {
        DMat { size, entries }
    }

    /// The place of an entry.
    fn place(&self, (row, col): (usize, usize)) -> usize {
        assert!(row < self.size && col < self.size, "({row}, {col}) is outside a matrix of size {}", self.size);
        row * self.size + col
    }

    /// How many rows there are.
    pub fn nrows(&self) -> usize {
        self.size
    }

    /// How many columns there are.
    pub fn ncols(&self) -> usize {
        self.size
    }

    /// All entries, row after row.
    pub fn as_row_slice(&self) -> &[f64] {
        &self.entries
    }
}

impl Index<(usize, usize)> for DMat {
    type Output = f64;

    fn index(&self, at: (usize, usize)) -> &f64 {
        &self.entries[self.place(at)]
    }
}

impl IndexMut<(usize, usize)> for DMat {
    fn index_mut(&mut self, at: (usize, usize)) -> &mut f64 {
        let place = self.place(at);
        &mut self.entries[place]
    }
}
