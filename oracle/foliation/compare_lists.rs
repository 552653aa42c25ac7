//! Compares our library's foliated_hypercubic with the altered Rust's pentachorons and its refusals with their table.
use crate::guards::Guarded;
use crate::tally::{Tally, of_numbers};
use crate::{compare_built, ffi};
use calls::differences;
use calls::random::Random;
use lattices::expected::{self, Lattices, Listed};
use lattices::sizes::{self, Size};

/// What guards the lists, and the count before a call.
const GUARD: u32 = 0x5a5a_a5a5;
const COUNT: usize = 0x00c0_ffee_0000;

/// What a list holds before a call.
pub fn before(room: usize) -> Vec<u32> {
    (0..room as u32).map(|place| (place + 1).wrapping_mul(0x9e37_79b9)).collect()
}

/// Makes the call; what it leaves, and what it did to memory that it wasn't lent to write to.
pub fn listed(size: Size, before: &[u32]) -> (Listed, Vec<String>) {
    let mut pents = Guarded::new(before, GUARD);
    let mut count = Guarded::new(&[COUNT], GUARD as usize);
    let (n_t, n_s) = size;
    let number = unsafe { ffi::cjapthumi_foliated_hypercubic(n_t, n_s, pents.start(), before.len(), count.start()) };
    let stray = [pents.complaint("pents"), count.complaint("count")].into_iter().flatten().collect();
    (Listed { number, pents: pents.content().to_vec(), count: count.content()[0] }, stray)
}

/// What was compared.
pub struct Lists<'a> {
    pub lattices: &'a Lattices,
    pub tally: Tally,
}

impl Lists<'_> {
    /// Makes a call with so many places and compares all that it left.
    fn call(&mut self, kind: &str, size: Size, room: usize) {
        let before = before(room);
        let (ours, mut found) = listed(size, &before);
        let expected = expected::listed(self.lattices, size, before, COUNT);
        found.extend(of_numbers("number", ours.number as usize, expected.number as usize));
        found.extend(of_numbers("count", ours.count, expected.count));
        found.extend(differences::of_lists("pents", &ours.pents, &expected.pents));
        self.tally.add(kind, expected.number, || format!("lattice {size:?}, {room} places"), &found);
    }

    /// Lawful sizes with lists of any length.
    fn lawful(&mut self) {
        let mut random = Random::of_round(600);
        for size in sizes::lawful() {
            let room = sizes::room(size).unwrap();
            let written = 5 * self.lattices.get(size).unwrap().complex.pents.len();
            self.call("list exact", size, room);
            self.call("list one longer", size, room + 1);
            (0..3).for_each(|_| self.call("list longer", size, room + 2 + random.below(5_000)));
            self.call("list of 50,000", size, 50_000);
            self.call("list one short", size, room - 1);
            self.call("list empty", size, 0);
            (0..3).for_each(|_| self.call("list short", size, random.below(room)));
            self.call("list of what would be written", size, written);
            self.call("list of what would be written, one short", size, written - 1);
        }
    }

    /// Sizes that aren't lawful, with lists that are long enough and that aren't.
    fn unlawful(&mut self) {
        for size in sizes::unlawful(&mut Random::of_round(601)) {
            let exact = sizes::room(size).filter(|&room| room <= 100_000).unwrap_or(7);
            self.call("size not lawful, list empty", size, 0);
            self.call("size not lawful, list short", size, exact.saturating_sub(1));
            self.call("size not lawful, list exact or short", size, exact);
            self.call("size not lawful, list of 41,000", size, 41_000);
        }
    }

    /// The sizes that 01-scope.md names.
    fn named(&mut self) {
        self.call("the sizes of 01", (5, 4), 120 * 320);
        self.call("the sizes of 01", (6, 4), 120 * 384);
        self.call("the sizes of 01", (1, 3), 120 * 27);
    }

    /// Compares everything.
    pub fn compare(&mut self) {
        self.named();
        self.lawful();
        self.unlawful();
        compare_built::compare(self.lattices, &mut self.tally);
        self.tally.print("foliated_hypercubic");
    }
}
