//! A retouch that was to be answered: what stood before it, what it left, what was worked out anew, and demand 3.
use crate::expected::{Change, Table, holders, within};
use hinges::distance::agree;
use phyz_regge::complex::SimplicialComplex;

/// The complex, the change with the length that it replaces, the pentachorons with the edge and the triangles that lie in them, the table before and after, and the tables worked out anew from the old lengths and from the changed ones.
pub struct Step<'a> {
    pub complex: &'a SimplicialComplex,
    pub change: Change,
    pub old_length: f64,
    pub holders: Vec<[usize; 5]>,
    pub touched: Vec<usize>,
    pub before: &'a Table,
    pub after: &'a Table,
    pub old: &'a Table,
    pub new: &'a Table,
}

/// Whether the deficits of two records are equal, as floats are.
pub fn deficits_agree(a: &Table, b: &Table, tri: usize) -> bool {
    agree(f64::from_bits(a.deficits[tri]), f64::from_bits(b.deficits[tri]))
}

/// Whether a record agrees with one that was worked out anew.
pub fn agrees(table: &Table, anew: &Table, tri: usize) -> bool {
    deficits_agree(table, anew, tri) && table.kinds[tri] == anew.kinds[tri]
}

/// The pentachorons with the edge of a change, and the triangles that lie in them.
pub fn around(complex: &SimplicialComplex, change: Change) -> (Vec<[usize; 5]>, Vec<usize>) {
    let holders = holders(complex, change.edge as usize);
    let touched = within(complex, &holders);
    (holders, touched)
}

impl Step<'_> {
    /// Whether a triangle lies in a pentachoron with the edge.
    pub fn is_touched(&self, tri: usize) -> bool {
        self.touched.binary_search(&tri).is_ok()
    }

    /// The other triangles.
    pub fn untouched(&self) -> impl Iterator<Item = usize> {
        (0..self.new.kinds.len()).filter(|&tri| !self.is_touched(tri))
    }

    /// Whether the table left equals the one worked out anew from the changed lengths.
    pub fn equal(&self) -> bool {
        (0..self.new.kinds.len()).all(|tri| agrees(self.after, self.new, tri))
    }

    /// Whether the table before matches the old lengths at every triangle that isn't touched.
    pub fn matched(&self) -> bool {
        self.untouched().all(|tri| agrees(self.before, self.old, tri))
    }

    /// What is to be said where demand 3 doesn't hold.
    pub fn complaint(&self) -> Option<String> {
        let (equal, matched) = (self.equal(), self.matched());
        (equal != matched).then(|| format!("demand 3: the table left is equal: {equal}, it matched before: {matched}"))
    }
}
