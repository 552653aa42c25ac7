//! Compares what our library builds of its own lattices with what the Rust builds of the altered copy's, and with the counts of 01-scope.md.
use crate::compare_lists::{before, listed};
use crate::guarded;
use crate::tally::{Tally, of_numbers};
use altered::foliation::FoliatedComplex;
use calls::checks::{self, Check};
use calls::expected::{self as builder, Answer, Lent};
use calls::{Call, LISTS, differences};
use lattices::expected::{Lattices, numbers};
use lattices::sizes::{self, Size};

/// The counts of 01-scope.md, in the order of the names; 0 where it has none.
const COUNTED: [(Size, [usize; 5]); 3] =
    [((2, 2), [0, 192, 0, 0, 0]), ((3, 2), [0, 576, 0, 0, 0]), ((3, 3), [0, 1_944, 1_215, 4_050, 4_860])];
const NAMES: [&str; 5] = ["vertices", "pentachorons", "edges", "triangles", "tets"];

/// The Rust's pentachorons, and ours, with lists of the Rust's rooms.
fn calls(size: Size, lattice: &FoliatedComplex) -> [Call; 2] {
    let pents = numbers(&lattice.complex).as_chunks().0.to_vec();
    let rust = Call::new((lattice.complex.n_vertices, pents), || 0);
    let (mut ours, _) = listed(size, &before(sizes::room(size).unwrap()));
    ours.pents.truncate(ours.count.saturating_mul(5));
    [rust.clone(), Call { pents: ours.pents, ..rust }]
}

/// How our builder's answer differs from the Rust's.
fn of_answers(ours: &Answer, expected: &Answer) -> Vec<String> {
    let mut found = Vec::from_iter(of_numbers("number", ours.number as usize, expected.number as usize));
    found.extend(of_numbers("place", ours.place, expected.place));
    for (place, name) in NAMES.iter().enumerate() {
        found.extend(of_numbers(name, ours.lent.counts[place], expected.lent.counts[place]));
    }
    for ((list, ours), expected) in LISTS.iter().zip(&ours.lent.lists).zip(&expected.lent.lists) {
        found.extend(differences::of_lists(list.name, ours, expected));
    }
    found
}

/// How our check of what we built differs.
fn of_check(built: Answer) -> Vec<String> {
    let Lent { lists, counts } = built.lent;
    let (lengths, outputs) = (lists.each_ref().map(Vec::len), [2 * lists[0].len(); 2]);
    let check = Check { counts, lists, lengths, outputs };
    let outputs = outputs.map(before);
    let (ours, mut found) = guarded::checked(&check, &outputs);
    if ours != checks::answer(&check, outputs) {
        found.push("check_built: another answer".to_string());
    }
    found
}

/// How our counts differ from those of 01-scope.md, where it has any for the size.
fn of_counts(size: Size, ours: &[usize; 5]) -> Option<Vec<String>> {
    let (_, counted) = COUNTED.iter().find(|(named, _)| *named == size)?;
    let known = (0..5).filter(|&place| counted[place] != 0);
    Some(known.filter_map(|place| of_numbers(NAMES[place], ours[place], counted[place])).collect())
}

/// Compares every lattice.
pub fn compare(lattices: &Lattices, tally: &mut Tally) {
    for (size, lattice) in &lattices.0 {
        let shown = || format!("lattice {size:?}");
        let [rust, ours] = calls(*size, lattice);
        let lent = Lent { lists: rust.lengths.map(before), counts: [0; 5] };
        let (ours, mut found) = guarded::answer(&ours, &lent);
        found.extend(of_answers(&ours, &builder::answer(&rust, lent)));
        tally.add("list and builder", 0, shown, &found);
        if let Some(found) = of_counts(*size, &ours.lent.counts) {
            tally.add("the counts of 01", 0, shown, &found);
        }
        tally.add("list, builder and check", 0, shown, &of_check(ours));
    }
}
