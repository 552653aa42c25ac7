//! Damages to what check_built is given that add or take away a piece, with what that asks elsewhere.
use crate::checks::Check;
use crate::damages::place;
use crate::expected;
use crate::random::Random;
use phyz_regge::complex::SimplicialComplex;

/// A face that stands there already or, ascending, any.
fn face<const N: usize>(random: &mut Random, n_vertices: usize, faces: &[[usize; N]]) -> [usize; N] {
    let mut any = [(); N].map(|_| random.below(n_vertices));
    any.sort_unstable();
    if faces.is_empty() || random.below(2) == 0 { any } else { random.pick(faces) }
}

/// A face at the end that lies in nothing; its edges have a triangle in their lists.
pub fn face_more(random: &mut Random, turn: usize, complex: &SimplicialComplex, check: &mut Check) {
    let (mut complex, n_vertices) = (complex.clone(), complex.n_vertices);
    match turn % 3 {
        0 => {
            complex.edges.push(face(random, n_vertices, &complex.edges));
            complex.edge_to_tris.push(vec![]);
            complex.edge_to_pents.push(vec![]);
        }
        1 => {
            let [a, b, c] = face(random, n_vertices, &complex.triangles);
            for edge in [[a, b], [a, c], [b, c]].iter().filter_map(|edge| complex.edge_index.get(edge)) {
                complex.edge_to_tris[*edge].push(complex.triangles.len());
            }
            complex.triangles.push([a, b, c]);
            complex.tri_to_pents.push(vec![]);
        }
        _ => complex.tets.push(face(random, n_vertices, &complex.tets)),
    }
    check.put(&complex);
}

/// The last face taken away, its lists and what speaks of it too.
pub fn face_fewer(_: &mut Random, turn: usize, complex: &SimplicialComplex, check: &mut Check) {
    let mut complex = complex.clone();
    match turn % 3 {
        0 => {
            complex.edges.pop();
            complex.edge_to_tris.pop();
            complex.edge_to_pents.pop();
        }
        1 => {
            complex.triangles.pop();
            complex.tri_to_pents.pop();
            complex.edge_to_tris.iter_mut().for_each(|list| list.retain(|&tri| tri < complex.triangles.len()));
        }
        _ => drop(complex.tets.pop()),
    }
    check.put(&complex);
}

/// An item more or fewer in a face's list, the starts as that asks.
pub fn item(random: &mut Random, turn: usize, complex: &SimplicialComplex, check: &mut Check) {
    let mut complex = complex.clone();
    let lists = [&mut complex.tri_to_pents, &mut complex.edge_to_tris, &mut complex.edge_to_pents];
    let lists = lists.into_iter().nth(turn % 3).unwrap();
    if !lists.is_empty() {
        let (face, item) = (place(random, lists.len()), random.below(lists.len()));
        let list = &mut lists[face];
        match random.below(3) {
            0 => drop(list.pop()),
            1 => list.push(item),
            _ => list.push(list[list.len() - 1]),
        }
    }
    check.put(&complex);
}

/// What the Rust builds of the first pentachorons: none, all but one, some.
fn fewer(random: &mut Random, complex: &SimplicialComplex) -> SimplicialComplex {
    let count = complex.pents.len();
    let some = random.below(count + 1);
    let kept = random.pick(&[0, count.saturating_sub(1), some, some]);
    SimplicialComplex::from_pentachorons(complex.n_vertices, &complex.pents[..kept])
}

/// The counts of fewer pentachorons.
pub fn fewer_counts(random: &mut Random, _: usize, complex: &SimplicialComplex, check: &mut Check) {
    check.counts = expected::counts(&fewer(random, complex));
}

/// The lists of fewer pentachorons, upon those of all.
pub fn fewer_lists(random: &mut Random, _: usize, complex: &SimplicialComplex, check: &mut Check) {
    let counts = check.counts;
    check.put(&fewer(random, complex));
    check.counts = counts;
}

/// A vertex twice in a pentachoron, all else as the Rust builds it.
pub fn repeated_vertex(random: &mut Random, _: usize, complex: &SimplicialComplex, check: &mut Check) {
    let mut pents = complex.pents.clone();
    if !pents.is_empty() {
        let pent = place(random, pents.len());
        let left = random.below(4);
        pents[pent][left] = pents[pent][left + 1];
    }
    check.put(&SimplicialComplex::from_pentachorons(complex.n_vertices, &pents));
}
