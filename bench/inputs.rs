//! The complexes and lengths on which calls are timed.
use calls::complexes::{MOST_PENTS, scattered};
use calls::lattice::{flat_lengths, lattice};
use calls::random::Random;
use calls::{Complex, as_rust};
use phyz_regge::complex::SimplicialComplex;

use crate::tables::grouped;

/// The time steps and points an axis of the largest lawful lattice.
pub const SIZE: (usize, usize) = (5, 4);

/// The lattices, and how many vertices the complexes drawn at random have.
const SIZES: [(usize, usize); 2] = [(3, 3), SIZE];
const VERTICES: [usize; 4] = [4_096, 300, 60, 12];

/// The spacing and the time step of flat lengths.
pub const UNITS: (f64, f64) = (1.0, 0.5);

/// How far a flat squared length is moved at most, and the largest size of a squared length that is drawn.
const MOVED: f64 = 0.01;
const LARGEST: f64 = 2.0;

/// A complex with the squared lengths of its edges.
pub struct Input {
    pub name: String,
    pub given: Complex,
    pub complex: SimplicialComplex,
    pub lengths: Vec<f64>,
}

/// What the Rust builds.
pub fn built((n_vertices, pents): &Complex) -> SimplicialComplex {
    SimplicialComplex::from_pentachorons(*n_vertices, &as_rust(pents))
}

/// So many pentachorons over so many vertices, drawn at random.
pub fn random(n_vertices: usize, count: usize) -> Complex {
    (n_vertices, scattered(&mut Random(n_vertices as u64), n_vertices, count))
}

impl Input {
    /// A lattice with its flat lengths, each moved at random.
    pub fn lattice(size: (usize, usize)) -> Input {
        let given = lattice(size.0, size.1);
        let (complex, mut random) = (built(&given), Random(1));
        let flat = flat_lengths(size, &complex, UNITS.0, UNITS.1);
        let lengths = flat.into_iter().map(|length| length + random.between(-MOVED, MOVED)).collect();
        let name = format!("lattice ({}, {}), {} pentachorons", size.0, size.1, grouped(given.1.len()));
        Input { name, given, complex, lengths }
    }

    /// So many pentachorons over so many vertices and lengths of either sign, all drawn at random.
    pub fn random(n_vertices: usize, count: usize) -> Input {
        let given = random(n_vertices, count);
        let (complex, mut random) = (built(&given), Random(2));
        let lengths = complex.edges.iter().map(|_| random.between(-LARGEST, LARGEST)).collect();
        let name = format!("{} random pentachorons, {} vertices", grouped(count), grouped(n_vertices));
        Input { name, given, complex, lengths }
    }

    /// All inputs, the largest lattice first.
    pub fn all() -> Vec<Input> {
        let lattices = SIZES.into_iter().rev().map(Input::lattice);
        lattices.chain(VERTICES.map(|n_vertices| Input::random(n_vertices, MOST_PENTS))).collect()
    }
}
