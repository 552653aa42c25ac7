//! What a call must answer: the refusals by the table of 01-scope.md, the lists by the Rust.
use crate::{Call, as_rust, rooms};
use phyz_regge::complex::SimplicialComplex;

/// The content of what a call is lent to write to.
#[derive(Clone, PartialEq)]
pub struct Lent {
    pub lists: [Vec<u32>; 10],
    pub counts: [usize; 5],
}

/// What a call gives back: 0 or the refusal's number, the place, and the content afterwards.
#[derive(PartialEq)]
pub struct Answer {
    pub number: u32,
    pub place: usize,
    pub lent: Lent,
}

/// A pentachoron's refusal.
fn pent_refusal(n_vertices: usize, pent: &[u32]) -> Option<u32> {
    let outside = pent.iter().any(|&vertex| vertex as usize >= n_vertices);
    let twice = (0..5).any(|place| pent[..place].contains(&pent[place]));
    if outside { Some(3) } else { twice.then_some(4) }
}

/// A call's refusal: its number and its place.
fn refusal(call: &Call) -> Option<(u32, usize)> {
    let Call { n_vertices, pents, lengths } = call;
    if *n_vertices == 0 || *n_vertices > 4_096 {
        return Some((1, 0));
    }
    if pents.len() % 5 != 0 || pents.len() > 40_960 {
        return Some((2, 0));
    }
    if rooms(pents.len()).iter().zip(lengths).any(|(room, length)| length < room) {
        return Some((5, 0));
    }
    let refusals = pents.chunks(5).map(|pent| pent_refusal(*n_vertices, pent));
    refusals.enumerate().find_map(|(place, number)| Some((number?, place)))
}

/// Where each list starts among the items of all, and where the last ends.
fn starts(lists: &[Vec<usize>]) -> Vec<usize> {
    let mut starts = vec![0];
    for list in lists {
        starts.push(starts[starts.len() - 1] + list.len());
    }
    starts
}

/// The Rust's complex as ten lists.
pub fn lists(complex: &SimplicialComplex) -> [Vec<u32>; 10] {
    let lists = [
        complex.pents.concat(),
        complex.edges.concat(),
        complex.triangles.concat(),
        complex.tets.concat(),
        complex.tri_to_pents.concat(),
        starts(&complex.tri_to_pents),
        complex.edge_to_tris.concat(),
        starts(&complex.edge_to_tris),
        complex.edge_to_pents.concat(),
        starts(&complex.edge_to_pents),
    ];
    lists.map(|list| list.into_iter().map(|number| number as u32).collect())
}

/// The numbers of the Rust's vertices, pentachorons, edges, triangles and tets.
pub fn counts(complex: &SimplicialComplex) -> [usize; 5] {
    let SimplicialComplex { n_vertices, pents, edges, triangles, tets, .. } = complex;
    [*n_vertices, pents.len(), edges.len(), triangles.len(), tets.len()]
}

/// The Rust's complex, or the refusal.
pub fn built(call: &Call) -> Result<SimplicialComplex, (u32, usize)> {
    match refusal(call) {
        Some(refusal) => Err(refusal),
        None => Ok(SimplicialComplex::from_pentachorons(call.n_vertices, &as_rust(call.pents.as_chunks().0))),
    }
}

/// What the call must give back, given the content before it.
pub fn answer(call: &Call, mut lent: Lent) -> Answer {
    let complex = match built(call) {
        Ok(complex) => complex,
        Err((number, place)) => return Answer { number, place, lent },
    };
    for (list, numbers) in lent.lists.iter_mut().zip(lists(&complex)) {
        list[..numbers.len()].copy_from_slice(&numbers);
    }
    lent.counts = counts(&complex);
    Answer { number: 0, place: 0, lent }
}
