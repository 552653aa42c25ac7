//! Our from_pentachorons beside the Rust's and beside GUDHI's simplex tree, which has no adjacency lists.
use crate::ffi;
use crate::inputs::Input;
use crate::tables::{Effort, answered, print_table, ratio, seconds, time};
use calls::checks::Check;
use calls::{Call, Complex, LISTS, as_rust};
use phyz_regge::complex::SimplicialComplex;
use std::collections::HashSet;
use std::ffi::{c_int, c_void};

unsafe extern "C" {
    fn gudhi_build(options: c_int, n_vertices: usize, pents: *const u32, length: usize) -> *mut c_void;
    fn gudhi_release(options: c_int, tree: *mut c_void) -> usize;
}

/// Our call on a complex, with the buffers that it is lent, exactly of their rooms.
pub struct Builder {
    pub call: Call,
    lists: [Vec<u32>; 10],
    counts: [usize; 5],
    place: usize,
}

impl Builder {
    /// The call before it is made.
    pub fn new(complex: Complex) -> Builder {
        let call = Call::new(complex, || 0);
        let lists = call.lengths.map(|length| vec![0; length]);
        Builder { call, lists, counts: [0; 5], place: 0 }
    }

    /// Makes the call; 0 or the refusal's number.
    pub fn make(&mut self) -> u32 {
        let given = (self.call.pents.as_ptr(), self.call.pents.len());
        let lists = self.lists.each_mut().map(|list| (list.as_mut_ptr(), list.len()));
        unsafe { ffi::from_pentachorons(self.call.n_vertices, given, lists, self.counts.as_mut_ptr(), &mut self.place) }
    }

    /// Makes sure that the counts and the ten lists are those of what the Rust built.
    pub fn verify(&mut self, complex: &SimplicialComplex) {
        assert_eq!(self.make(), 0, "the builder refuses");
        let Check { counts, lists, .. } = Check::new(complex);
        assert_eq!(self.counts, counts, "the counts differ");
        for (list, (ours, rust)) in LISTS.iter().zip(self.lists.iter().zip(&lists)) {
            assert!(ours.starts_with(rust), "the lists {} differ", list.name);
        }
    }
}

/// GUDHI's tree of a list with one of the options: the seconds to build it, and how many simplices it has.
fn tree(options: c_int, call: &Call) -> (f64, usize) {
    let mut tree = std::ptr::null_mut();
    let build = || tree = unsafe { gudhi_build(options, call.n_vertices, call.pents.as_ptr(), call.pents.len()) };
    let seconds = seconds(build);
    (seconds, unsafe { gudhi_release(options, tree) })
}

/// How many simplices a complex has, all vertices among them; a repeated pentachoron is one.
fn simplices(complex: &SimplicialComplex) -> usize {
    let pents: HashSet<_> = complex.pents.iter().collect();
    complex.n_vertices + complex.edges.len() + complex.triangles.len() + complex.tets.len() + pents.len()
}

/// The times of our builder, the Rust's, and GUDHI's tree with each of the three options.
fn times(effort: Effort, input: &Input) -> [f64; 5] {
    let (n_vertices, pents) = (input.given.0, as_rust(&input.given.1));
    let mut builder = Builder::new(input.given.clone());
    builder.verify(&input.complex);
    let call = builder.call.clone();
    for options in 0..3 {
        assert_eq!(tree(options, &call).1, simplices(&input.complex), "the simplices differ");
    }
    effort.medians([
        &mut || answered(|| builder.make()),
        &mut || seconds(|| SimplicialComplex::from_pentachorons(n_vertices, &pents)),
        &mut || tree(0, &call).0,
        &mut || tree(1, &call).0,
        &mut || tree(2, &call).0,
    ])
}

/// Prints the table, and gives the times of the first input: ours, the Rust's, and GUDHI's least.
pub fn print(effort: Effort, inputs: &[Input]) -> [f64; 3] {
    let (mut rows, mut measured) = (Vec::new(), Vec::new());
    for input in inputs {
        let [ours, rust, trees @ ..] = times(effort, input);
        let least = trees.into_iter().fold(f64::INFINITY, f64::min);
        let ratios = [rust, least].map(|other| ratio(other, ours));
        let cells = [ours, rust].into_iter().chain(trees).map(time).chain(ratios);
        rows.push([input.name.clone()].into_iter().chain(cells).collect());
        measured.push([ours, rust, least]);
    }
    let heading =
        ["", "ours", "Rust", "GUDHI, default", "fast persistence", "bare", "Rust / ours", "GUDHI's least / ours"];
    print_table("from_pentachorons", &heading, &rows);
    measured[0]
}
