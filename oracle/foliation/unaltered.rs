//! The unaltered Rust, which walks its hash set as that comes: its pentachorons as a set, its types and lengths by their edges' vertices, beside our library's.
use crate::ffi::{self, Lists};
use calls::checks::Check;
use calls::random::Random;
use calls::table::{self, OTHERS};
use calls::{as_rust, distance};
use lattices::expected::Lattices;
use lattices::sizes::{self, Size};
use lattices::units::{self, Units};
use phyz_regge::foliation::{FoliatedComplex, flat_minkowski_sq_lengths, foliated_hypercubic};

/// How many spacings and steps are drawn for a lattice.
const DRAWN: usize = 20;

/// How many sets and types were looked at and how many differ, and how far the lengths are apart.
#[derive(Default)]
pub struct Distance {
    sets: [u64; 2],
    types: [u64; 2],
    lengths: distance::Distance,
}

/// The pentachorons in ascending order.
fn sorted(mut pents: Vec<[usize; 5]>) -> Vec<[usize; 5]> {
    pents.sort_unstable();
    pents
}

/// Our pentachorons of a lattice, in ascending order.
fn pents(size: Size) -> Vec<[usize; 5]> {
    let (mut pents, mut count) = (vec![0; sizes::room(size).unwrap()], 0);
    unsafe { ffi::cjapthumi_foliated_hypercubic(size.0, size.1, pents.as_mut_ptr(), pents.len(), &mut count) };
    pents.truncate(5 * count);
    sorted(as_rust(pents.as_chunks().0))
}

/// Our types and lengths of a lattice's edges.
fn ours(size: Size, check: &Check, units: Units) -> (Vec<u8>, Vec<f64>) {
    let edges = check.counts[2];
    let (mut types, mut lengths) = (vec![9; edges], vec![0.0; edges]);
    let lists = check.lists.each_ref().map(|list| (list.as_ptr(), list.len()));
    let complex = Lists { counts: check.counts.as_ptr(), lists };
    let to = lengths.as_mut_ptr();
    unsafe {
        ffi::edge_types(size.0, size.1, complex, types.as_mut_ptr(), edges);
        ffi::flat_minkowski_sq_lengths(size.0, size.1, complex, units.0, units.1, to, edges);
    }
    (types, lengths)
}

impl Distance {
    /// Looks at a lattice's edges with some units; `numbers` are the unaltered Rust's numbers of our edges.
    fn edges(&mut self, size: Size, check: &Check, rust: &FoliatedComplex, numbers: &[usize], units: Units) {
        let (types, lengths) = ours(size, check, units);
        let theirs = flat_minkowski_sq_lengths(rust, units.0, units.1);
        for (edge, &number) in numbers.iter().enumerate() {
            self.types[0] += 1;
            self.types[1] += u64::from(types[edge] != rust.edge_types[number] as u8);
            self.lengths.add((lengths[edge], 0), (theirs[number], 0));
        }
    }

    /// Looks at every lattice.
    pub fn measure(&mut self, lattices: &Lattices) {
        let mut random = Random::of_round(800);
        for (size, lattice) in &lattices.0 {
            let rust = foliated_hypercubic(size.0, size.1);
            self.sets[0] += 1;
            self.sets[1] += u64::from(pents(*size) != sorted(rust.complex.pents.clone()));
            let check = Check::new(&lattice.complex);
            let numbers: Vec<usize> = lattice.complex.edges.iter().map(|edge| rust.complex.edge_index[edge]).collect();
            for _ in 0..DRAWN {
                self.edges(*size, &check, &rust, &numbers, units::drawn(&mut random));
            }
        }
    }

    /// Prints the report.
    pub fn print(&self) {
        let Distance { sets, types, lengths } = self;
        println!("distance of the unaltered Rust from us, no pass mark:");
        println!("pentachorons as sets: {} of {} lattices differ", sets[1], sets[0]);
        println!("types by vertices: {} of {} differ", types[1], types[0]);
        lengths.print("lengths by vertices");
        table::distance("flat_minkowski_sq_lengths", OTHERS, lengths);
    }
}
