//! What a core is lent beside the counts and lists: the numbers of each pentachoron's edges and triangles, as our check wrote them, between guards.
use crate::ffi::{self, BuiltLists, Lists};
use crate::guarded_complex::GuardedComplex;
use crate::guards::Guarded;

/// What guards the numbers.
const GUARD: u32 = 0x5a5a_a5a5;

/// The numbers, and what they were when our check had written them.
pub struct Incidence {
    lists: [Guarded<u32>; 2],
    written: [Vec<u32>; 2],
}

/// The counts and lists as they are lent.
fn lent(complex: &mut GuardedComplex) -> Lists {
    Lists { counts: complex.counts(), lists: complex.lists() }
}

impl Incidence {
    /// What our check writes for counts and lists that are built.
    pub fn new(complex: &mut GuardedComplex) -> Incidence {
        let room = 10 * complex.given.counts[1];
        let mut lists = [(); 2].map(|()| Guarded::new(&vec![GUARD; room], GUARD));
        let [edges, tris] = lists.each_mut().map(Guarded::start);
        let number = unsafe { ffi::check_built(lent(complex), edges, room, tris, room) };
        assert_eq!(number, 0, "check_built refuses what is built");
        let written = lists.each_ref().map(|list| list.content().to_vec());
        Incidence { lists, written }
    }

    /// The complex as a core takes it.
    pub fn built(&mut self, complex: &mut GuardedComplex) -> BuiltLists {
        let [pent_edges, pent_tris] =
            self.lists.each_mut().map(|list| (list.start().cast_const(), list.content().len()));
        BuiltLists { lists: lent(complex), pent_edges, pent_tris }
    }

    /// What a call did to them.
    pub fn stray(&self) -> Vec<String> {
        let lists = ["pent_edges", "pent_tris"].iter().zip(&self.lists).zip(&self.written);
        lists.flat_map(|((name, list), written)| list.complaints(name, written)).collect()
    }
}
