//! Our library's calls on lists that lie between guards.
use crate::ffi::{self, Lists};
use crate::guarded_complex::GuardedComplex;
use crate::guards::Guarded;
use calls::checks::{Check, Checked, OUTPUTS};
use calls::expected::{Answer, Lent};
use calls::{Call, LISTS};

/// What a guard holds, and the place before the call.
const GUARD: u32 = 0x5a5a_a5a5;

/// A list of 32-bit numbers between guards.
fn guarded(list: &Vec<u32>) -> Guarded<u32> {
    Guarded::new(list, GUARD)
}

/// A list as it is lent to be written.
fn lent(list: &mut Guarded<u32>) -> (*mut u32, usize) {
    (list.start(), list.content().len())
}

/// Makes the call on lists of this content; its answer, and what it did to memory that it wasn't lent to write to.
pub fn answer(call: &Call, before: &Lent) -> (Answer, Vec<String>) {
    let mut pents = Guarded::new(&call.pents, GUARD);
    let mut lists = before.lists.each_ref().map(guarded);
    let mut counts = Guarded::new(&before.counts, GUARD as usize);
    let mut place = Guarded::new(&[GUARD as usize], GUARD as usize);
    let given = (pents.start().cast_const(), call.pents.len());
    let lent = lists.each_mut().map(lent);
    let number = unsafe { ffi::from_pentachorons(call.n_vertices, given, lent, counts.start(), place.start()) };
    let others = [counts.complaint("counts"), place.complaint("place")].into_iter().flatten();
    let complaints = LISTS.iter().zip(&lists).filter_map(|(list, guarded)| guarded.complaint(list.name));
    let stray = complaints.chain(pents.complaints("given pents", &call.pents)).chain(others).collect();
    let lists = lists.map(|list| list.content().to_vec());
    let lent = Lent { lists, counts: counts.content().try_into().unwrap() };
    (Answer { number, place: place.content()[0], lent }, stray)
}

/// Checks with outputs of this content; the answer, and what the call did to memory that it wasn't lent to write to.
pub fn checked(check: &Check, before: &[Vec<u32>; 2]) -> (Checked, Vec<String>) {
    let mut complex = GuardedComplex::new(check);
    let mut outputs = before.each_ref().map(guarded);
    let [edges, tris] = outputs.each_mut().map(lent);
    let lists = Lists { counts: complex.counts(), lists: complex.lists() };
    let number = unsafe { ffi::check_built(lists, edges.0, edges.1, tris.0, tris.1) };
    let complaints = OUTPUTS.iter().zip(&outputs).filter_map(|(name, output)| output.complaint(name));
    let stray = complex.stray().into_iter().chain(complaints).collect();
    (Checked { number, outputs: outputs.map(|output| output.content().to_vec()) }, stray)
}
