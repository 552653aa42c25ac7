//! The Rust crate of bindings/rust beside the Rust, call by call: what a group sees that moves.
use crate::inputs::{Input, SIZE, UNITS};
use crate::lattices::{assert_lattice, rust_lattice};
use crate::local::{STEP, entries, some_edges};
use crate::near::{assert_near, assert_same};
use crate::tables::{Effort, print_table, ratio, seconds, time};
use calls::as_rust;
use cjapthumi::complex::EdgeNumber;
use cjapthumi::hinge_table::HingeTable;
use cjapthumi::{foliation, lorentzian, lorentzian_regge as ours, retouch::retouch};
use phyz_regge::complex::SimplicialComplex;
use phyz_regge::{lorentzian as rust_lorentzian, lorentzian_regge as rust};

/// How many free edges the local calls have.
const FREE: usize = 10;

/// The squared length that a retouch stores.
const LENGTH: f64 = 1.0;

/// The cells of a row: a call of the crate beside one of the Rust.
fn row<A, B>(effort: Effort, name: &str, mut ours: impl FnMut() -> A, mut rust: impl FnMut() -> B) -> Vec<String> {
    let [ours, rust] = effort.medians([&mut || seconds(&mut ours), &mut || seconds(&mut rust)]);
    vec![name.into(), time(ours), time(rust), ratio(rust, ours)]
}

/// The same, after the two answers were compared.
fn compared<A, B>(
    effort: Effort,
    name: &str,
    (ours, rust): (impl Fn() -> A, impl Fn() -> B),
    compare: impl FnOnce(A, B),
) -> Vec<String> {
    compare(ours(), rust());
    row(effort, name, ours, rust)
}

/// Makes sure that a complex has the faces and the adjacency that the Rust built.
fn compare_complexes(ours: cjapthumi::Complex, rust: SimplicialComplex) {
    assert_eq!(ours.n_vertices, rust.n_vertices, "the vertex counts differ");
    assert!(ours.edges == rust.edges, "the edges differ");
    assert!(ours.triangles == rust.triangles, "the triangles differ");
    assert!(ours.tets == rust.tets, "the tets differ");
    assert!(ours.pents == rust.pents, "the pentachorons differ");
    assert!(ours.tri_to_pents == rust.tri_to_pents, "the triangles' pentachorons differ");
    assert!(ours.edge_to_tris == rust.edge_to_tris, "the edges' triangles differ");
    assert!(ours.edge_to_pents == rust.edge_to_pents, "the edges' pentachorons differ");
}

/// Makes sure that hinges have the Rust's kinds and about its deficits.
fn compare_hinges(
    ours: impl IntoIterator<Item = (f64, lorentzian::HingeType)>,
    rust: impl IntoIterator<Item = (f64, rust_lorentzian::HingeType)>,
) {
    let (deficits, kinds): (Vec<f64>, Vec<u8>) = ours.into_iter().map(|(deficit, kind)| (deficit, kind as u8)).unzip();
    let (due, due_kinds): (Vec<f64>, Vec<u8>) = rust.into_iter().map(|(deficit, kind)| (deficit, kind as u8)).unzip();
    assert!(kinds == due_kinds, "the kinds differ");
    assert_near(&deficits, &due);
}

/// The rows of the calls that build: of pentachorons, and of a lattice with its flat lengths.
fn building(effort: Effort, input: &Input) -> Vec<Vec<String>> {
    let (n_vertices, pents) = (input.given.0, as_rust(&input.given.1));
    let flat = || {
        let lattice = foliation::foliated_hypercubic(SIZE.0, SIZE.1).unwrap();
        let lengths = foliation::flat_minkowski_sq_lengths(&lattice, UNITS.0, UNITS.1);
        (lattice, lengths)
    };
    vec![
        compared(
            effort,
            "from_pentachorons",
            (
                || cjapthumi::Complex::from_pentachorons(n_vertices, &pents).unwrap(),
                || SimplicialComplex::from_pentachorons(n_vertices, &pents),
            ),
            compare_complexes,
        ),
        compared(effort, "lattice, types and flat lengths", (flat, rust_lattice), |(lattice, lengths), rust| {
            let types: Vec<u8> = lattice.edge_types.iter().map(|&kind| kind as u8).collect();
            assert_lattice(rust, &lattice.complex.pents, &lattice.complex.edges, &types, &lengths);
        }),
    ]
}

/// The rows of the calls over all hinges.
fn global(effort: Effort, input: &Input, complex: &cjapthumi::Complex) -> Vec<Vec<String>> {
    let (built, lengths) = (&input.complex, &input.lengths);
    vec![
        compared(
            effort,
            "deficits",
            (
                || ours::lorentzian_deficit_angles(complex, lengths).unwrap(),
                || rust::lorentzian_deficit_angles(built, lengths),
            ),
            compare_hinges,
        ),
        compared(
            effort,
            "action",
            (
                || ours::lorentzian_regge_action(complex, lengths).unwrap(),
                || rust::lorentzian_regge_action(built, lengths),
            ),
            |ours, rust| assert_near(&[ours], &[rust]),
        ),
        compared(
            effort,
            "gradient",
            (
                || ours::lorentzian_regge_action_grad(complex, lengths).unwrap(),
                || rust::lorentzian_regge_action_grad(built, lengths),
            ),
            |ours, rust| assert_near(&ours, &rust),
        ),
    ]
}

/// The rows of the calls over free edges.
fn local(effort: Effort, input: &Input, complex: &cjapthumi::Complex) -> Vec<Vec<String>> {
    let (built, lengths, free) = (&input.complex, &input.lengths, &some_edges(&input.complex, FREE));
    vec![
        compared(
            effort,
            "local deficits, 10 free",
            (
                || ours::local_deficit_angles(complex, lengths, free).unwrap(),
                || rust::local_deficit_angles(built, lengths, free),
            ),
            |ours, rust| {
                assert_eq!(ours.len(), rust.len(), "the triangles differ");
                compare_hinges(ours.values().copied(), ours.keys().map(|tri| rust[tri]));
            },
        ),
        compared(
            effort,
            "local gradient, 10 free",
            (
                || ours::local_lorentzian_regge_action_grad(complex, lengths, free).unwrap(),
                || rust::local_lorentzian_regge_action_grad(built, lengths, free),
            ),
            |ours, rust| assert_near(&ours, &rust),
        ),
        compared(
            effort,
            "local Hessian, 10 free",
            (
                || ours::local_lorentzian_regge_hessian(complex, lengths, free, STEP).unwrap(),
                || rust::local_lorentzian_regge_hessian(built, lengths, free, STEP),
            ),
            |ours, rust| assert_near(ours.as_row_slice(), &entries(&rust, FREE)),
        ),
    ]
}

/// The row of the retouch, which must leave the table worked out anew; in its place the Rust works out all deficits.
fn retouching(effort: Effort, input: &Input, complex: &cjapthumi::Complex) -> Vec<String> {
    let (mut lengths, edge) = (input.lengths.clone(), input.lengths.len() / 2);
    let mut table = HingeTable::worked_out(complex, &lengths).unwrap();
    let mut changed = lengths.clone();
    changed[edge] = LENGTH;
    let make = |lengths: &mut [f64], table: &mut HingeTable| {
        retouch(complex, lengths, EdgeNumber(edge), LENGTH, table).unwrap();
    };
    make(&mut lengths, &mut table);
    assert_same(&lengths, &changed);
    assert!(table == HingeTable::worked_out(complex, &changed).unwrap(), "the table isn't the one worked out anew");
    let rust = || rust::lorentzian_deficit_angles(&input.complex, &changed);
    compare_hinges(table.iter(), rust());
    row(effort, "retouch; Rust: all deficits", || make(&mut lengths, &mut table), rust)
}

/// Prints the table.
pub fn print(effort: Effort, input: &Input) {
    let complex = cjapthumi::Complex::from_pentachorons(input.given.0, &as_rust(&input.given.1)).unwrap();
    let mut rows = building(effort, input);
    rows.extend(global(effort, input, &complex));
    rows.extend(local(effort, input, &complex));
    rows.push(retouching(effort, input, &complex));
    print_table(&format!("The Rust crate: {}", input.name), &["call", "crate", "Rust", "Rust / crate"], &rows);
}
