//! The root of the altered copy: the Rust's foliation in 01's order, over the unaltered builder.
pub mod foliation;

pub use phyz_regge::complex;
use std::collections::HashSet;
use std::hash::Hash;

/// A set that is walked in the order in which its elements first came.
pub struct Kept<T> {
    known: HashSet<T>,
    order: Vec<T>,
}

impl<T: Copy + Eq + Hash> Kept<T> {
    /// No elements.
    pub fn new() -> Self {
        Kept { known: HashSet::new(), order: Vec::new() }
    }

    /// Adds an element unless it is there.
    pub fn insert(&mut self, element: T) {
        if self.known.insert(element) {
            self.order.push(element);
        }
    }
}

impl<T> IntoIterator for Kept<T> {
    type Item = T;
    type IntoIter = std::vec::IntoIter<T>;

    fn into_iter(self) -> Self::IntoIter {
        self.order.into_iter()
    }
}
