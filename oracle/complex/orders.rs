//! Damages to the order of what check_built is given.
use crate::checks::Check;
use crate::complexes::shuffle;
use crate::damages::{WIDTHS, list_of, place};
use crate::expected;
use crate::random::Random;
use phyz_regge::complex::SimplicialComplex;
use std::ops::Range;

/// The rows of a list: the vertices of a simplex, the items of a face, or a start.
fn rows(complex: &SimplicialComplex, list: usize) -> Vec<Range<usize>> {
    let lists = expected::lists(complex);
    let width = *WIDTHS.get(list).unwrap_or(&1);
    let simplexes = || (0..lists[list].len() / width).map(|row| width * row..width * row + width).collect();
    match list {
        4 | 6 | 8 => lists[list + 1].windows(2).map(|ends| ends[0] as usize..ends[1] as usize).collect(),
        _ => simplexes(),
    }
}

/// Swaps two rows of a list that are of one length.
pub fn two_rows(random: &mut Random, turn: usize, complex: &SimplicialComplex, check: &mut Check) {
    let (list, _) = list_of(turn, complex);
    let rows = rows(complex, list);
    let a = random.pick(&[0, rows.len() - 1, random.0 as usize % rows.len()]);
    let like: Vec<usize> = (0..rows.len()).filter(|&b| b != a && rows[b].len() == rows[a].len()).collect();
    if !like.is_empty() {
        let b = random.pick(&like);
        rows[a].clone().zip(rows[b].clone()).for_each(|(a, b)| check.lists[list].swap(a, b));
    }
}

/// Turns a row of two or more round, or moves its first number to the end, or swaps two neighbours.
pub fn order_in_row(random: &mut Random, turn: usize, complex: &SimplicialComplex, check: &mut Check) {
    let list = [0, 1, 2, 3, 4, 6, 8][turn % 7];
    let rows: Vec<_> = rows(complex, list).into_iter().filter(|row| row.len() > 1).collect();
    if !rows.is_empty() {
        let row = rows[place(random, rows.len())].clone();
        let row = &mut check.lists[list][row];
        let left = random.below(row.len() - 1);
        match random.below(3) {
            0 => row.reverse(),
            1 => row.rotate_left(1),
            _ => row.swap(left, left + 1),
        }
    }
}

/// An order of so many: two swapped, neighbours or not, turned round, or any.
fn order(random: &mut Random, count: usize) -> Vec<usize> {
    let mut order: Vec<usize> = (0..count).collect();
    if count > 1 {
        let (a, b) = (place(random, count - 1), random.below(count));
        match random.below(6) {
            0..2 => order.swap(a, a + 1),
            2..4 => order.swap(a, b),
            4 => order.reverse(),
            _ => shuffle(random, &mut order),
        }
    }
    order
}

/// A list in an order.
fn ordered<T: Clone>(list: &[T], order: &[usize]) -> Vec<T> {
    order.iter().map(|&old| list[old].clone()).collect()
}

/// Puts the new numbers into lists of old ones, which are sorted or not.
fn renumber(lists: &mut [Vec<usize>], order: &[usize], sorted: bool) {
    let mut new = vec![0; order.len()];
    order.iter().enumerate().for_each(|(number, &old)| new[old] = number);
    for list in lists {
        list.iter_mut().for_each(|number| *number = new[*number]);
        if sorted {
            list.sort_unstable();
        }
    }
}

/// The triangles in an order, and with them all that speaks of them.
fn reorder_triangles(complex: &mut SimplicialComplex, order: &[usize], sorted: bool) {
    complex.triangles = ordered(&complex.triangles, order);
    complex.tri_to_pents = ordered(&complex.tri_to_pents, order);
    renumber(&mut complex.edge_to_tris, order, sorted);
}

/// Edges, triangles or tets in another order, and with them all that speaks of them.
pub fn order_of_faces(random: &mut Random, turn: usize, complex: &SimplicialComplex, check: &mut Check) {
    let mut complex = complex.clone();
    match turn % 3 {
        0 => {
            let order = order(random, complex.edges.len());
            complex.edges = ordered(&complex.edges, &order);
            complex.edge_to_tris = ordered(&complex.edge_to_tris, &order);
            complex.edge_to_pents = ordered(&complex.edge_to_pents, &order);
        }
        1 => {
            let order = order(random, complex.triangles.len());
            reorder_triangles(&mut complex, &order, true);
        }
        _ => complex.tets = ordered(&complex.tets, &order(random, complex.tets.len())),
    }
    check.put(&complex);
}

/// The same of triangles, but an edge's triangles stay in their old order.
pub fn unsorted_triangles(random: &mut Random, _: usize, complex: &SimplicialComplex, check: &mut Check) {
    let mut complex = complex.clone();
    let order = order(random, complex.triangles.len());
    reorder_triangles(&mut complex, &order, false);
    check.put(&complex);
}

/// Pentachorons in another order, with them their numbers in the lists, while the faces stay.
pub fn order_of_pents(random: &mut Random, _: usize, complex: &SimplicialComplex, check: &mut Check) {
    let mut complex = complex.clone();
    let order = order(random, complex.pents.len());
    complex.pents = ordered(&complex.pents, &order);
    renumber(&mut complex.tri_to_pents, &order, true);
    renumber(&mut complex.edge_to_pents, &order, true);
    check.put(&complex);
}

/// What the Rust builds of the pentachorons in another order or with the vertices numbered downwards.
fn another(random: &mut Random, complex: &SimplicialComplex) -> SimplicialComplex {
    let (last, turn) = (complex.n_vertices - 1, random.below(2) == 0);
    let pents = ordered(&complex.pents, &order(random, complex.pents.len()));
    let turned = |pent: [usize; 5]| if turn { pent.map(|vertex| last - vertex) } else { pent };
    SimplicialComplex::from_pentachorons(complex.n_vertices, &pents.into_iter().map(turned).collect::<Vec<_>>())
}

/// One list as it is for another order.
pub fn list_of_another(random: &mut Random, turn: usize, complex: &SimplicialComplex, check: &mut Check) {
    let lists = expected::lists(&another(random, complex));
    check.put_list(turn % 10, &lists[turn % 10]);
}

/// All lists but one as they are for another order.
pub fn lists_of_another(random: &mut Random, turn: usize, complex: &SimplicialComplex, check: &mut Check) {
    check.put(&another(random, complex));
    check.put_list(turn % 10, &expected::lists(complex)[turn % 10]);
}
