//! The calls of check_built, and what they must answer: the lists are built anew by the Rust and compared.
use crate::random::Random;
use crate::{Call, expected, rooms};
use phyz_regge::complex::SimplicialComplex;

/// The names of the two outputs.
pub const OUTPUTS: [&str; 2] = ["pent_edges", "pent_tris"];

/// What a call is given: the counts, the lists, how many places of each are lent, and the lengths of the outputs.
#[derive(Clone)]
pub struct Check {
    pub counts: [usize; 5],
    pub lists: [Vec<u32>; 10],
    pub lengths: [usize; 10],
    pub outputs: [usize; 2],
}

/// What a call gives back: 0 or the refusal's number, and the outputs' content.
#[derive(PartialEq)]
pub struct Checked {
    pub number: u32,
    pub outputs: [Vec<u32>; 2],
}

impl Check {
    /// A call on the lists that the Rust built, and outputs of just their room.
    pub fn new(complex: &SimplicialComplex) -> Check {
        let lists = expected::lists(complex);
        let lengths = lists.each_ref().map(Vec::len);
        Check { counts: expected::counts(complex), lists, lengths, outputs: [10 * complex.pents.len(); 2] }
    }

    /// The places of a list that are lent.
    pub fn lent(&self, list: usize) -> &[u32] {
        &self.lists[list][..self.lengths[list]]
    }

    /// Puts a complex into the lists, which grow where it is larger; what stands past it is kept.
    pub fn put(&mut self, complex: &SimplicialComplex) {
        let Check { counts, lists, .. } = Check::new(complex);
        self.counts = counts;
        for (list, numbers) in lists.iter().enumerate() {
            self.put_list(list, numbers);
        }
    }

    /// Puts numbers at the start of a list.
    pub fn put_list(&mut self, list: usize, numbers: &[u32]) {
        let tail = self.lists[list].get(numbers.len()..).unwrap_or(&[]);
        self.lists[list] = [numbers, tail].concat();
        self.lengths[list] = self.lengths[list].max(numbers.len());
    }
}

/// Lengthens the lists by nothing or by up to some places: numbers of the list again, or junk.
pub fn longer(random: &mut Random, mut check: Check) -> Check {
    let most = random.pick(&[0, 0, 1, 40]);
    for (list, length) in check.lists.iter_mut().zip(&mut check.lengths) {
        for _ in 0..random.below(most + 1) {
            let again = if list.is_empty() { 0 } else { random.pick(list) };
            list.push(random.pick(&[again, again, 0, u32::MAX, random.0 as u32]));
        }
        *length = list.len();
    }
    check
}

/// The complex whose lists and counts a call is given, if they are any's that the builder answers.
pub fn built(check: &Check) -> Option<SimplicialComplex> {
    let [n_vertices, n_pents, ..] = check.counts;
    let pents = check.lent(0).get(..n_pents.checked_mul(5)?)?.to_vec();
    let lengths = rooms(pents.len());
    let complex = expected::built(&Call { n_vertices, pents, lengths }).ok()?;
    let mut lists = expected::lists(&complex).into_iter().enumerate();
    let same = lists.all(|(list, numbers)| check.lent(list).starts_with(&numbers));
    (same && check.counts == expected::counts(&complex)).then_some(complex)
}

/// The numbers of each pentachoron's edges and triangles, by the Rust's hash maps.
fn incidence(complex: &SimplicialComplex) -> [Vec<u32>; 2] {
    let (mut edges, mut tris) = (Vec::new(), Vec::new());
    for p in &complex.pents {
        for i in 0..5 {
            for j in i + 1..5 {
                edges.push(complex.edge_index[&[p[i], p[j]]] as u32);
                tris.extend((j + 1..5).map(|k| complex.tri_index[&[p[i], p[j], p[k]]] as u32));
            }
        }
    }
    [edges, tris]
}

/// What the call must give back, given the outputs' content before it.
pub fn answer(check: &Check, mut outputs: [Vec<u32>; 2]) -> Checked {
    let Some(complex) = built(check) else {
        return Checked { number: 7, outputs };
    };
    let incidence = incidence(&complex);
    if incidence.iter().zip(&outputs).any(|(numbers, output)| output.len() < numbers.len()) {
        return Checked { number: 5, outputs };
    }
    for (output, numbers) in outputs.iter_mut().zip(incidence) {
        output[..numbers.len()].copy_from_slice(&numbers);
    }
    Checked { number: 0, outputs }
}
