//! The crate's builder and lattices beside the Rust's, and their refusals beside the table.
use crate::programs;
use crate::report::{Refused, Report, all_bits};
use calls::expected::built;
use calls::lattice::lattice;
use calls::random::Random;
use calls::{Call, as_rust, defects, rooms};
use cjapthumi::foliation::{FoliatedComplex, foliated_hypercubic};
use cjapthumi::{Complex, Refusal};
use hinges::sizes;
use phyz_regge::complex::SimplicialComplex;

/// How many calls of the builder have each choice of defects.
const FLAWED: usize = 100;

/// All that a complex tells of itself, as lists.
type Told = Vec<Vec<usize>>;

/// What our complex tells.
fn ours(complex: &Complex) -> Told {
    let mut told = programs::ours::fields(complex);
    told.extend((0..complex.n_pents()).map(|pent| complex.pent_tri_indices(pent).to_vec()));
    told
}

/// What the Rust's complex tells.
fn rust(complex: &SimplicialComplex) -> Told {
    let mut told = programs::rust::fields(complex);
    let places = || (0..5).flat_map(|a| (a + 1..5).flat_map(move |b| (b + 1..5).map(move |c| [a, b, c])));
    told.extend(complex.pents.iter().map(|p| places().map(|tri| complex.tri_index[&tri.map(|v| p[v])]).collect()));
    told
}

/// Compares what is built of pentachorons; our complex, if it isn't refused.
pub fn build(
    report: &mut Report,
    n_vertices: usize,
    pents: &[[usize; 5]],
    due: Result<&SimplicialComplex, Refused>,
) -> Option<Complex> {
    let complex = Complex::from_pentachorons(n_vertices, pents);
    let about = || format!("{n_vertices} vertices, {} pentachorons", pents.len());
    report.call("Complex", about, complex.as_ref().map(ours).map_err(Refusal::clone), due.map(rust));
    complex.ok()
}

/// Compares calls with every choice of the defects that the crate's call can have: it has lists of fives and rooms of its own.
pub fn defects(report: &mut Report) {
    for (seed, defects) in defects::choices().enumerate() {
        let mut random = Random::of_round(2_100 + seed as u64);
        for number in 0..FLAWED {
            let Call { n_vertices, pents, .. } = defects::call(&mut random, number, &defects);
            let lengths = rooms(pents.len());
            let due = built(&Call { n_vertices, pents: pents.clone(), lengths });
            if pents.len() % 5 == 0 {
                let due = due.as_ref().map_err(|refused| *refused);
                build(report, n_vertices, &as_rust(pents.as_chunks().0), due);
            }
        }
    }
}

/// Compares a lattice: its complex, and its slices, types and flat lengths with some units; our lattice and the Rust's complex.
pub fn of_lattice(report: &mut Report, size: sizes::Size) -> (FoliatedComplex, SimplicialComplex) {
    let (n_vertices, pents) = lattice(size.0, size.1);
    let complex = SimplicialComplex::from_pentachorons(n_vertices, &as_rust(&pents));
    let found = foliated_hypercubic(size.0, size.1);
    let told = found.as_ref().map(|lattice| ours(&lattice.complex)).map_err(Refusal::clone);
    report.call("foliated_hypercubic", || format!("{size:?}"), told, Ok(rust(&complex)));
    for (spacing, dt) in [(1.0, 0.5), (0.3, -2.0), (f64::NAN, 1.0), (1e200, f64::INFINITY)] {
        let (told, lengths) = programs::ours::slices(size, spacing, dt);
        let (due_told, due) = programs::rust::slices(size, spacing, dt);
        let about = || format!("{size:?}, {spacing:?}, {dt:?}");
        report.plain("FoliatedComplex", about, told, due_told);
        report.plain("flat_minkowski_sq_lengths", about, all_bits(&lengths), all_bits(&due));
    }
    (found.unwrap(), complex)
}

/// Compares sizes that aren't lawful.
pub fn unlawful(report: &mut Report) {
    for (n_t, n_s) in sizes::unlawful(&mut Random::of_round(2_200)) {
        let ours = foliated_hypercubic(n_t, n_s).map(|lattice| lattice.complex.n_pents());
        report.call("foliated_hypercubic", || format!("{n_t}, {n_s}"), ours, Err((6, 0)));
    }
}
