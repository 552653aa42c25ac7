//! The counts and lists of a complex between guards, lent to be read.
use crate::guards::Guarded;
use calls::LISTS;
use calls::checks::Check;

/// What guards the counts and the lists.
const GUARD: u32 = 0x5a5a_a5a5;

/// Counts and lists between guards.
pub struct GuardedComplex<'a> {
    pub given: &'a Check,
    counts: Guarded<usize>,
    lists: [Guarded<u32>; 10],
}

impl<'a> GuardedComplex<'a> {
    /// These counts and lists.
    pub fn new(given: &'a Check) -> Self {
        let counts = Guarded::new(&given.counts, GUARD as usize);
        let lists = given.lists.each_ref().map(|list| Guarded::new(list, GUARD));
        GuardedComplex { given, counts, lists }
    }

    /// The counts as they are lent.
    pub fn counts(&mut self) -> *const usize {
        self.counts.start().cast_const()
    }

    /// The lists as they are lent: what isn't lent of one stands past what is.
    pub fn lists(&mut self) -> [(*const u32, usize); 10] {
        let starts = self.lists.each_mut().map(|list| list.start().cast_const());
        std::array::from_fn(|list| (starts[list], self.given.lengths[list]))
    }

    /// What a call did to them.
    pub fn stray(&self) -> Vec<String> {
        let given = LISTS.iter().zip(&self.lists).zip(&self.given.lists);
        let complaints = given.flat_map(|((list, guarded), given)| guarded.complaints(list.name, given));
        complaints.chain(self.counts.complaints("counts", &self.given.counts)).collect()
    }
}
