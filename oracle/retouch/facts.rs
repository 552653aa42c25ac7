//! What occurs among the retouches that are answered, counted so that none of it goes without inputs.
use crate::step::{Step, agrees, deficits_agree};
use hinges::facts::print;
use std::collections::HashSet;

/// What is counted, in this order.
const NAMES: [&str; 32] = [
    "tables left that equal the one worked out anew",
    "tables left that don't",
    "tables left that equal it, where a touched record didn't match before",
    "tables left that don't equal it by one deficit alone",
    "tables left that don't equal it by one kind alone",
    "tables left that don't equal it by a byte that is no kind alone",
    "retouches of every triangle",
    "retouches that leave some triangles",
    "edges in one pentachoron",
    "edges in several",
    "edges in a pentachoron that is there twice",
    "touched triangles that aren't on the edge",
    "such triangles with another deficit than before, from the old lengths to the new",
    "touched triangles in several pentachorons with the edge",
    "touched triangles in a pentachoron without the edge",
    "touched triangles whose kind changes, from the old lengths to the new",
    "records that the old lengths would give otherwise",
    "NaN deficits written",
    "NaN deficits kept, with the payload",
    "bytes that are no kind replaced",
    "bytes that are no kind kept",
    "places past the last triangle",
    "new lengths NaN",
    "new lengths infinity",
    "new lengths -infinity",
    "new lengths 0",
    "new lengths -0",
    "new lengths subnormal",
    "new lengths huge",
    "new lengths whole",
    "new lengths that are the old ones",
    "zeros in place of the other zero",
];

/// Where the new lengths start.
const LENGTHS: usize = 22;

/// From where on a number is huge: its square overflows.
const HUGE: f64 = 1e155;

/// The counts.
pub struct Facts([u64; NAMES.len()]);

impl Default for Facts {
    fn default() -> Self {
        Facts([0; NAMES.len()])
    }
}

impl Facts {
    /// Counts so many of a fact.
    fn count(&mut self, fact: usize, count: usize) {
        self.0[fact] += count as u64;
    }

    /// Counts one where it holds.
    fn holds(&mut self, fact: usize, holds: bool) {
        self.count(fact, usize::from(holds));
    }

    /// Counts how the table left compares with the one worked out anew.
    fn tables(&mut self, step: &Step) {
        let equal = step.equal();
        self.holds(0, equal);
        self.holds(1, !equal);
        let stale = step.touched.iter().any(|&tri| !agrees(step.before, step.old, tri));
        self.holds(2, equal && stale);
        let others: Vec<usize> = step.untouched().filter(|&tri| !agrees(step.after, step.new, tri)).take(2).collect();
        if let [tri] = others[..] {
            let (deficits, kind) = (deficits_agree(step.after, step.new, tri), step.after.kinds[tri]);
            self.holds(3, kind == step.new.kinds[tri]);
            self.holds(4, deficits && kind < 2);
            self.holds(5, deficits && kind >= 2);
        }
    }

    /// Counts the pentachorons with the edge, and the triangles that lie in them.
    fn around(&mut self, step: &Step) {
        let (complex, edge) = (step.complex, step.complex.edges[step.change.edge as usize]);
        self.holds(6, step.touched.len() == complex.triangles.len());
        self.holds(7, step.touched.len() != complex.triangles.len());
        let different: HashSet<_> = step.holders.iter().collect();
        self.holds(8, different.len() == 1);
        self.holds(9, different.len() > 1);
        self.holds(10, different.len() < step.holders.len());
        for &tri in &step.touched {
            let vertices = complex.triangles[tri];
            let off = edge.iter().any(|end| !vertices.contains(end));
            self.holds(11, off);
            self.holds(12, off && !deficits_agree(step.old, step.new, tri));
            let holds = |pent: &[usize; 5]| vertices.iter().all(|vertex| pent.contains(vertex));
            self.holds(13, different.iter().filter(|pent| holds(pent)).count() > 1);
            let without = |pent: usize| !different.contains(&complex.pents[pent]);
            self.holds(14, complex.tri_to_pents[tri].iter().any(|&pent| without(pent)));
        }
    }

    /// Counts the records that are written and those that are kept.
    fn records(&mut self, step: &Step) {
        let is_nan = |bits: u64| f64::from_bits(bits).is_nan();
        for &tri in &step.touched {
            self.holds(15, step.old.kinds[tri] != step.new.kinds[tri]);
            self.holds(16, !agrees(step.old, step.new, tri));
            self.holds(17, is_nan(step.new.deficits[tri]));
            self.holds(19, step.before.kinds[tri] >= 2);
        }
        for tri in step.untouched() {
            self.holds(18, is_nan(step.before.deficits[tri]));
            self.holds(20, step.before.kinds[tri] >= 2);
        }
        let triangles = step.complex.triangles.len();
        self.count(21, step.before.deficits.len() + step.before.kinds.len() - 2 * triangles);
    }

    /// Counts the new length.
    fn length(&mut self, step: &Step) {
        let (new, old) = (step.change.length, step.old_length);
        let zero = |x: f64| new.to_bits() == x.to_bits();
        let sorts = [
            new.is_nan(),
            new == f64::INFINITY,
            new == f64::NEG_INFINITY,
            zero(0.0),
            zero(-0.0),
            new.is_subnormal(),
            new.is_finite() && new.abs() > HUGE,
            new.fract() == 0.0 && new.abs() < HUGE && new != 0.0,
            new.to_bits() == old.to_bits(),
            new == 0.0 && old == 0.0 && new.to_bits() != old.to_bits(),
        ];
        sorts.into_iter().enumerate().for_each(|(sort, is)| self.holds(LENGTHS + sort, is));
    }

    /// Counts what occurs in a retouch.
    pub fn add(&mut self, step: &Step) {
        self.tables(step);
        self.around(step);
        self.records(step);
        self.length(step);
    }

    /// Prints the counts; how many are 0.
    pub fn print(&self) -> u64 {
        print(&self.0, &NAMES)
    }
}
