//! Our own stand-in for the crate phyz_math: as much of DMat as lorentzian_regge.rs uses.
use std::ops::{Add, Index, IndexMut};

/// A matrix, row after row.
pub struct DMat {
    columns: usize,
    entries: Vec<f64>,
}

impl DMat {
    /// The matrix of zeros.
    pub fn zeros(rows: usize, columns: usize) -> DMat {
        DMat { columns, entries: vec![0.0; rows * columns] }
    }
}

impl Index<(usize, usize)> for DMat {
    type Output = f64;
    fn index(&self, (row, column): (usize, usize)) -> &f64 {
        &self.entries[row * self.columns + column]
    }
}

impl IndexMut<(usize, usize)> for DMat {
    fn index_mut(&mut self, (row, column): (usize, usize)) -> &mut f64 {
        &mut self.entries[row * self.columns + column]
    }
}

impl Add for &DMat {
    type Output = DMat;
    fn add(self, other: &DMat) -> DMat {
        let entries = self.entries.iter().zip(&other.entries).map(|(a, b)| a + b).collect();
        DMat { columns: self.columns, entries }
    }
}
