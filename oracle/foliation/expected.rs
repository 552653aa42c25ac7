//! What the calls must answer: the refusals by the table of 01-scope.md, the rest by the altered Rust.
use crate::sizes::{self, Size};
use crate::units::Units;
use altered::foliation::{EdgeType, FoliatedComplex, flat_minkowski_sq_lengths, foliated_hypercubic};
use calls::checks::{self, Check};
use phyz_regge::complex::SimplicialComplex;

/// What the altered Rust makes of every lawful size.
pub struct Lattices(pub Vec<(Size, FoliatedComplex)>);

impl Lattices {
    /// All of them.
    pub fn new() -> Lattices {
        Lattices(sizes::lawful().into_iter().map(|size| (size, foliated_hypercubic(size.0, size.1))).collect())
    }

    /// The lattice of a size, if it is lawful.
    pub fn get(&self, size: Size) -> Option<&FoliatedComplex> {
        self.0.iter().find(|(lawful, _)| *lawful == size).map(|(_, lattice)| lattice)
    }
}

/// What a call of foliated_hypercubic leaves: 0 or the refusal's number, the lent list and the count.
#[derive(PartialEq)]
pub struct Listed {
    pub number: u32,
    pub pents: Vec<u32>,
    pub count: usize,
}

/// The pentachorons as one list.
pub fn numbers(complex: &SimplicialComplex) -> Vec<u32> {
    complex.pents.as_flattened().iter().map(|&vertex| vertex as u32).collect()
}

/// What the call must leave, given the content before it.
pub fn listed(lattices: &Lattices, size: Size, mut pents: Vec<u32>, count: usize) -> Listed {
    let Some(lattice) = lattices.get(size) else {
        return Listed { number: 6, pents, count };
    };
    if sizes::room(size).is_none_or(|room| pents.len() < room) {
        return Listed { number: 5, pents, count };
    }
    let numbers = numbers(&lattice.complex);
    pents[..numbers.len()].copy_from_slice(&numbers);
    Listed { number: 0, pents, count: lattice.complex.pents.len() }
}

/// Whether the counts and lists are this lattice's: built, with its vertex count and its pentachorons in their order.
fn is_of(lattice: &FoliatedComplex, check: &Check) -> bool {
    let SimplicialComplex { n_vertices, pents, .. } = &lattice.complex;
    let same = check.counts[..2] == [*n_vertices, pents.len()] && check.lent(0).starts_with(&numbers(&lattice.complex));
    same && checks::answer(check, [vec![], vec![]]).number != 7
}

/// The lattice whose edges a call over a complex is about, or 6 or 7.
pub fn over<'a>(lattices: &'a Lattices, size: Size, check: &Check) -> Result<&'a FoliatedComplex, u32> {
    let lattice = lattices.get(size).ok_or(6_u32)?;
    if is_of(lattice, check) { Ok(lattice) } else { Err(7) }
}

/// What a call over a complex leaves: its number and its output, which has the values of all edges if it isn't refused, given the content before it.
pub fn filled<T: Copy>(
    over: Result<&FoliatedComplex, u32>,
    values: impl FnOnce(&FoliatedComplex) -> Vec<T>,
    mut output: Vec<T>,
) -> (u32, Vec<T>) {
    match over {
        Err(number) => (number, output),
        Ok(lattice) if output.len() < lattice.complex.edges.len() => (5, output),
        Ok(lattice) => {
            let values = values(lattice);
            output[..values.len()].copy_from_slice(&values);
            (0, output)
        }
    }
}

/// The types of a lattice's edges: 0 for Spatial, 1 for Timelike, 2 for Diagonal.
pub fn types(lattice: &FoliatedComplex) -> Vec<u8> {
    let byte = |kind: &EdgeType| match kind {
        EdgeType::Spatial => 0,
        EdgeType::Timelike => 1,
        EdgeType::Diagonal => 2,
    };
    lattice.edge_types.iter().map(byte).collect()
}

/// The bits of a number, those of one NaN for any.
pub fn bits(x: f64) -> u64 {
    if x.is_nan() { f64::NAN.to_bits() } else { x.to_bits() }
}

/// The bits of the flat squared lengths of a lattice's edges.
pub fn lengths(lattice: &FoliatedComplex, (spacing, dt): Units) -> Vec<u64> {
    flat_minkowski_sq_lengths(lattice, spacing, dt).into_iter().map(bits).collect()
}
