//! Damages to what check_built is given. Whether the call is to be refused then isn't for them to say: a damage may happen to be lawful.
use crate::checks::Check;
use crate::expected;
use crate::random::Random;
use crate::{orders, pieces};
use phyz_regge::complex::SimplicialComplex;

/// A kind of damage: its name, after how many turns it comes to the same list again, and how the one of a turn is done to the lists of a complex.
pub struct Damage {
    pub name: &'static str,
    pub turns: usize,
    pub make: fn(&mut Random, usize, &SimplicialComplex, &mut Check),
}

pub const DAMAGES: [Damage; 24] = [
    Damage { name: "none", turns: 1, make: |_, _, _, _| () },
    Damage { name: "a number", turns: 10, make: number },
    Damage { name: "a number past the count", turns: 10, make: past_count },
    Damage { name: "a count", turns: 5, make: count },
    Damage { name: "the vertex count", turns: 1, make: vertex_count },
    Damage { name: "two numbers swapped", turns: 10, make: two_numbers },
    Damage { name: "two rows swapped", turns: 10, make: orders::two_rows },
    Damage { name: "the order in a row", turns: 7, make: orders::order_in_row },
    Damage { name: "the order of faces, adjacency too", turns: 3, make: orders::order_of_faces },
    Damage { name: "the order of triangles, their lists not sorted", turns: 1, make: orders::unsorted_triangles },
    Damage { name: "the order of pentachorons, adjacency too", turns: 1, make: orders::order_of_pents },
    Damage { name: "a list of another order", turns: 10, make: orders::list_of_another },
    Damage { name: "all lists but one of another order", turns: 10, make: orders::lists_of_another },
    Damage { name: "a list shorter", turns: 10, make: shorter },
    Damage { name: "the last start", turns: 3, make: last_start },
    Damage { name: "all starts one more", turns: 3, make: all_starts },
    Damage { name: "a face more", turns: 3, make: pieces::face_more },
    Damage { name: "a face fewer", turns: 3, make: pieces::face_fewer },
    Damage { name: "an item more or fewer", turns: 3, make: pieces::item },
    Damage { name: "counts of fewer pentachorons", turns: 1, make: pieces::fewer_counts },
    Damage { name: "lists of fewer pentachorons", turns: 1, make: pieces::fewer_lists },
    Damage { name: "a repeated vertex, built as the Rust does", turns: 1, make: pieces::repeated_vertex },
    Damage { name: "outputs shorter or longer", turns: 3, make: outputs },
    Damage { name: "outputs shorter, and a number or a count", turns: 3, make: outputs_too },
];

/// The widths of the rows of the first four lists.
pub const WIDTHS: [usize; 4] = [5, 2, 3, 4];

/// Where the numbers of each list end.
fn ends(complex: &SimplicialComplex) -> [usize; 10] {
    expected::lists(complex).map(|list| list.len())
}

/// The lists in turn, starts where a list has no numbers; and where its numbers end.
pub fn list_of(turn: usize, complex: &SimplicialComplex) -> (usize, usize) {
    let ends = ends(complex);
    let list = if ends[turn % 10] == 0 { 5 + turn % 3 * 2 } else { turn % 10 };
    (list, ends[list])
}

/// The first place, the last or any.
pub fn place(random: &mut Random, end: usize) -> usize {
    let any = random.below(end);
    random.pick(&[0, end - 1, any, any])
}

/// A number in place of an old one: near it, the least, the largest, one of the list, a small one, any.
fn other(random: &mut Random, list: &[u32], old: u32) -> u32 {
    let (there, small, any) = (random.pick(list), random.below(8) as u32, random.word() as u32);
    let (more, less) = (old.wrapping_add(1), old.wrapping_sub(1));
    random.pick(&[more, more, less, less, old ^ 1 << 16, old ^ 1 << 31, 0, u32::MAX, there, there, small, any])
}

/// A count in place of an old one: near it, the least, the largest, some that come to the same after a cut to 32 bits or after a product, any.
fn other_count(random: &mut Random, old: usize) -> usize {
    let (more, less, any) = (old.wrapping_add(1), old.wrapping_sub(1), random.word() as usize);
    let cut = old.wrapping_add(random.pick(&[1 << 16, 1 << 32, 1 << 61, 1 << 62, 1 << 63, usize::MAX / 5 + 1]));
    random.pick(&[more, more, less, less, 0, usize::MAX, usize::MAX - 1, 2 * old, cut, cut, random.0 as usize % 9, any])
}

/// Puts another number at a place of a list.
fn change(random: &mut Random, check: &mut Check, list: usize, place: usize) {
    let numbers = &check.lists[list];
    let new = other(random, numbers, numbers[place]);
    check.lists[list][place] = new;
}

/// A number of a list, each list in turn.
fn number(random: &mut Random, turn: usize, complex: &SimplicialComplex, check: &mut Check) {
    let (list, end) = list_of(turn, complex);
    let place = place(random, end);
    change(random, check, list, place);
}

/// A number past those that count, in a list that is lengthened where it has none.
fn past_count(random: &mut Random, turn: usize, complex: &SimplicialComplex, check: &mut Check) {
    let (list, end) = (turn % 10, ends(complex)[turn % 10]);
    if check.lengths[list] == end {
        let extra = 1 + random.below(4);
        check.lists[list].resize(end + extra, 0);
        check.lengths[list] += extra;
    }
    let place = end + place(random, check.lengths[list] - end);
    change(random, check, list, place);
}

/// A count, each in turn.
fn count(random: &mut Random, turn: usize, _: &SimplicialComplex, check: &mut Check) {
    let count = &mut check.counts[turn % 5];
    *count = other_count(random, *count);
}

/// A vertex count out of range, or that leaves a vertex outside, or none.
fn vertex_count(random: &mut Random, _: usize, complex: &SimplicialComplex, check: &mut Check) {
    let last = complex.pents.concat().into_iter().max().unwrap_or(0);
    let cut = check.counts[0] + random.pick(&[1 << 12, 1 << 16, 1 << 32]);
    let any = 1 + random.below(4_096);
    check.counts[0] = random.pick(&[0, 0, 4_096, 4_097, 4_097, usize::MAX, cut, last, last, last + 1, any]);
}

/// Two numbers of a list swapped, often neighbours.
fn two_numbers(random: &mut Random, turn: usize, complex: &SimplicialComplex, check: &mut Check) {
    let (list, end) = list_of(turn, complex);
    let (a, b) = (place(random, end), place(random, end));
    let next = random.pick(&[b, b, (a + 1) % end]);
    check.lists[list].swap(a, next);
}

/// Lends too little of a list, by one place, by a row, by some, by all; the numbers still stand past what is lent.
fn shorter(random: &mut Random, turn: usize, complex: &SimplicialComplex, check: &mut Check) {
    let (list, end) = list_of(turn, complex);
    let row = end.saturating_sub(*WIDTHS.get(list).unwrap_or(&1));
    let any = random.below(end);
    check.lengths[list] = random.pick(&[end - 1, end - 1, row, 0, any]);
}

/// The last start of a list of starts.
fn last_start(random: &mut Random, turn: usize, complex: &SimplicialComplex, check: &mut Check) {
    let list = 5 + turn % 3 * 2;
    change(random, check, list, ends(complex)[list] - 1);
}

/// Every start one more.
fn all_starts(_: &mut Random, turn: usize, complex: &SimplicialComplex, check: &mut Check) {
    let list = 5 + turn % 3 * 2;
    check.lists[list][..ends(complex)[list]].iter_mut().for_each(|start| *start += 1);
}

/// One output too short by one place, by some, by all, or both; or longer.
fn outputs(random: &mut Random, turn: usize, _: &SimplicialComplex, check: &mut Check) {
    for output in [&[0][..], &[1], &[0, 1]][turn % 3] {
        let room = check.outputs[*output];
        let any = random.below(room + 1);
        let (less, longer) = (room.saturating_sub(1), room + 1 + random.below(100));
        check.outputs[*output] = random.pick(&[less, less, less, 0, any, longer, longer, longer]);
    }
}

/// The same, and a number or a count.
fn outputs_too(random: &mut Random, turn: usize, complex: &SimplicialComplex, check: &mut Check) {
    outputs(random, turn, complex, check);
    let (damage, turn) = (random.pick(&[number, count]), random.below(10));
    damage(random, turn, complex, check);
}
