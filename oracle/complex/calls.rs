//! The calls of from_pentachorons and check_built that are compared, frozen and timed: their lists, their inputs, and what they must answer.
pub mod checks;
pub mod complexes;
pub mod damages;
pub mod defects;
pub mod differences;
#[path = "../regge/distance.rs"]
pub mod distance;
#[path = "../end.rs"]
pub mod end;
pub mod expected;
pub mod frozen;
pub mod lattice;
mod orders;
mod pieces;
#[path = "../regge/random.rs"]
pub mod random;
#[path = "../table.rs"]
pub mod table;

/// A pentachoron's five vertices.
pub type Pent = [u32; 5];

/// A vertex count and pentachorons.
pub type Complex = (usize, Vec<Pent>);

/// A lent list: its name, and its room, so many places for each pentachoron and so many besides.
pub struct List {
    pub name: &'static str,
    for_each: usize,
    besides: usize,
}

/// The ten lists in the order of the arguments.
pub const LISTS: [List; 10] = [
    List { name: "pents", for_each: 5, besides: 0 },
    List { name: "edges", for_each: 20, besides: 0 },
    List { name: "triangles", for_each: 30, besides: 0 },
    List { name: "tets", for_each: 20, besides: 0 },
    List { name: "tri_to_pents_items", for_each: 10, besides: 0 },
    List { name: "tri_to_pents_starts", for_each: 10, besides: 1 },
    List { name: "edge_to_tris_items", for_each: 30, besides: 0 },
    List { name: "edge_to_tris_starts", for_each: 10, besides: 1 },
    List { name: "edge_to_pents_items", for_each: 10, besides: 0 },
    List { name: "edge_to_pents_starts", for_each: 10, besides: 1 },
];

/// The pentachorons as the Rust takes them.
pub fn as_rust(pents: &[Pent]) -> Vec<[usize; 5]> {
    pents.iter().map(|pent| pent.map(|vertex| vertex as usize)).collect()
}

/// The rooms of the lists for so many numbers of pentachorons.
pub fn rooms(numbers: usize) -> [usize; 10] {
    LISTS.map(|list| list.for_each * (numbers / 5) + list.besides)
}

/// What a call is given: the lengths are those of the ten lists.
#[derive(Clone)]
pub struct Call {
    pub n_vertices: usize,
    pub pents: Vec<u32>,
    pub lengths: [usize; 10],
}

impl Call {
    /// A call on lists that are longer than their rooms by what `extra` gives for each.
    pub fn new((n_vertices, pents): Complex, mut extra: impl FnMut() -> usize) -> Call {
        let pents = pents.into_flattened();
        let lengths = rooms(pents.len()).map(|room| room + extra());
        Call { n_vertices, pents, lengths }
    }
}
