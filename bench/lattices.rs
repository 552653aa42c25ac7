//! Our lattice's pentachorons, edge types and flat lengths beside the Rust's.
use crate::builder::Builder;
use crate::check::Checked;
use crate::ffi;
use crate::inputs::{Input, SIZE, UNITS};
use crate::near::assert_same;
use crate::tables::{Effort, answered, print_table, ratio, seconds, time};
use phyz_regge::complex::{Edge, Pent, SimplicialComplex};
use phyz_regge::foliation::{FoliatedComplex, flat_minkowski_sq_lengths, foliated_hypercubic};
use std::collections::BTreeSet;

/// A call of foliated_hypercubic with the list that it is lent, exactly of its room.
pub struct Listing {
    pub size: (usize, usize),
    pub pents: Vec<u32>,
    count: usize,
}

impl Listing {
    /// The call before it is made.
    pub fn new() -> Listing {
        let cells = SIZE.0 * SIZE.1 * SIZE.1 * SIZE.1;
        Listing { size: SIZE, pents: vec![0; 120 * cells], count: 0 }
    }

    /// Makes the call; 0 or the refusal's number.
    pub fn make(&mut self) -> u32 {
        let (pents, length) = (self.pents.as_mut_ptr(), self.pents.len());
        unsafe { ffi::cjapthumi_foliated_hypercubic(self.size.0, self.size.1, pents, length, &mut self.count) }
    }
}

/// Calls over a lattice's complex with the outputs that they are lent.
pub struct Edges {
    pub size: (usize, usize),
    pub complex: Checked,
    types: Vec<u8>,
    lengths: Vec<f64>,
}

impl Edges {
    /// The calls before they are made.
    pub fn new(complex: &SimplicialComplex) -> Edges {
        let (types, lengths) = (vec![0; complex.edges.len()], vec![0.0; complex.edges.len()]);
        Edges { size: SIZE, complex: Checked::new(complex), types, lengths }
    }

    /// Asks for the types; 0 or the refusal's number.
    pub fn types(&mut self) -> u32 {
        let (types, length) = (self.types.as_mut_ptr(), self.types.len());
        unsafe { ffi::edge_types(self.size.0, self.size.1, self.complex.lent(), types, length) }
    }

    /// Asks for the lengths; 0 or the refusal's number.
    pub fn lengths(&mut self) -> u32 {
        let ((n_t, n_s), (spacing, dt), complex) = (self.size, UNITS, self.complex.lent());
        let (lengths, length) = (self.lengths.as_mut_ptr(), self.lengths.len());
        unsafe { ffi::flat_minkowski_sq_lengths(n_t, n_s, complex, spacing, dt, lengths, length) }
    }
}

/// The Rust's lattice, with its flat squared lengths.
pub fn rust_lattice() -> (FoliatedComplex, Vec<f64>) {
    let lattice = foliated_hypercubic(SIZE.0, SIZE.1);
    let lengths = flat_minkowski_sq_lengths(&lattice, UNITS.0, UNITS.1);
    (lattice, lengths)
}

/// Makes sure that pentachorons are those of the Rust's lattice, and types and lengths its own, edge by edge: it is numbered in hash order.
pub fn assert_lattice(
    (lattice, rust_lengths): (FoliatedComplex, Vec<f64>),
    pents: &[Pent],
    edges: &[Edge],
    types: &[u8],
    lengths: &[f64],
) {
    let [ours, rust] = [pents, &lattice.complex.pents].map(BTreeSet::from_iter);
    assert_eq!((pents.len(), edges.len()), (rust.len(), lattice.complex.edges.len()), "the counts differ");
    assert!(ours == rust, "the pentachorons differ");
    let numbers: Vec<usize> = edges.iter().map(|edge| lattice.complex.edge_index[edge]).collect();
    let rust: Vec<u8> = numbers.iter().map(|&edge| lattice.edge_types[edge] as u8).collect();
    assert!(types == rust, "the types differ");
    assert_same(lengths, &numbers.iter().map(|&edge| rust_lengths[edge]).collect::<Vec<_>>());
}

/// Makes sure that the list is the lattice's, and types and lengths those of the Rust.
fn verify(input: &Input, listing: &mut Listing, edges: &mut Edges) {
    assert_eq!([listing.make(), edges.types(), edges.lengths()], [0; 3], "the lattice is refused");
    assert_eq!((listing.count, &listing.pents[..]), (input.given.1.len(), input.given.1.as_flattened()));
    assert_lattice(rust_lattice(), &input.complex.pents, &input.complex.edges, &edges.types, &edges.lengths);
}

/// Prints the table: our list, builder, types and lengths beside the Rust's foliated_hypercubic, which does the first three in one.
pub fn print(effort: Effort, input: &Input) {
    let (mut listing, mut edges) = (Listing::new(), Edges::new(&input.complex));
    let (mut others, mut builder) = (Edges::new(&input.complex), Builder::new(input.given.clone()));
    verify(input, &mut listing, &mut edges);
    builder.verify(&input.complex);
    let lattice = foliated_hypercubic(SIZE.0, SIZE.1);
    let [list, build, types, lengths, foliated, flat] = effort.medians([
        &mut || answered(|| listing.make()),
        &mut || answered(|| builder.make()),
        &mut || answered(|| edges.types()),
        &mut || answered(|| others.lengths()),
        &mut || seconds(|| foliated_hypercubic(SIZE.0, SIZE.1)),
        &mut || seconds(|| flat_minkowski_sq_lengths(&lattice, UNITS.0, UNITS.1)),
    ]);
    let alone = |name: &str, ours| vec![name.into(), time(ours), "".into(), "".into()];
    let beside = |name: &str, ours, rust| vec![name.into(), time(ours), time(rust), ratio(rust, ours)];
    let rows = [
        alone("list", list),
        alone("edge types, checked", types),
        beside("list and builder; Rust: with types", list + build, foliated),
        beside("list, builder and types, checked", list + build + types, foliated),
        beside("flat lengths, checked", lengths, flat),
    ];
    print_table(&format!("Lattice calls: {}", input.name), &["call", "ours", "Rust", "Rust / ours"], &rows);
}
