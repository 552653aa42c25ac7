//! Periodic lattices with a foliation in time.
use crate::complex::Complex;
use crate::ffi;
use crate::refusal::{Refusal, answered};
use std::ops::Deref;

/// The most cells of a lattice.
const MOST_CELLS: usize = 341;

/// How many places the vertices of a cell's pentachorons take.
const CELL: usize = 120;

/// The type of a lattice's edge.
#[derive(Debug, Clone, Copy, PartialEq, Eq, Hash)]
pub enum EdgeType {
    /// No step in time.
    Spatial,
    /// A step in time alone.
    Timelike,
    /// A step in time and in space.
    Diagonal,
}

impl EdgeType {
    /// The type that a byte of the library stands for: 0, 1 or 2.
    fn from_byte(byte: u8) -> EdgeType {
        [EdgeType::Spatial, EdgeType::Timelike, EdgeType::Diagonal][usize::from(byte)]
    }
}

/// A lattice's complex with its slices and the types of its edges. Its fields, such as `lattice.complex`, are those of [`Foliation`];
/// they can be read, not changed. A whole lattice can take another's place, its complex can't:
///
/// ```
/// # use cjapthumi::foliation::foliated_hypercubic;
/// let (mut lattice, other) = (foliated_hypercubic(2, 2).unwrap(), foliated_hypercubic(3, 3).unwrap());
/// lattice = other.clone();
/// assert_eq!(lattice.complex.n_pents(), 1_944);
/// ```
///
/// ```compile_fail
/// # use cjapthumi::foliation::foliated_hypercubic;
/// let (mut lattice, other) = (foliated_hypercubic(2, 2).unwrap(), foliated_hypercubic(3, 3).unwrap());
/// lattice.complex = other.complex.clone();
/// ```
#[derive(Debug, Clone)]
pub struct FoliatedComplex {
    foliation: Foliation,
}

/// What a [`FoliatedComplex`] has to read, under the names of phyz-regge's fields.
#[derive(Debug, Clone)]
#[non_exhaustive]
pub struct Foliation {
    /// The complex.
    pub complex: Complex,
    /// How many slices of constant time there are.
    pub n_slices: usize,
    /// How many vertices a slice has.
    pub vertices_per_slice: usize,
    /// How many vertices there are along an axis of space.
    pub n_spatial: usize,
    /// The type of each edge.
    pub edge_types: Vec<EdgeType>,
    /// For each slice its vertices: `vertex_map[t][x + n_s * (y + n_s * z)]` is vertex (t, x, y, z).
    pub vertex_map: Vec<Vec<usize>>,
}

impl Deref for FoliatedComplex {
    type Target = Foliation;

    fn deref(&self) -> &Foliation {
        &self.foliation
    }
}

impl FoliatedComplex {
    /// The vertex of a slice that has this number in it.
    ///
    /// # Panics
    /// If there is no such slice, or it has no vertex of this number.
    pub fn global_vertex(&self, slice: usize, local: usize) -> usize {
        self.vertex_map[slice][local]
    }

    /// The slice of a vertex.
    pub fn vertex_slice(&self, global: usize) -> usize {
        global % self.n_slices
    }

    /// The number that a vertex has in its slice.
    pub fn vertex_local(&self, global: usize) -> usize {
        global / self.n_slices
    }

    /// The other ends of a vertex's spatial edges, in the order of the edges.
    ///
    /// ```
    /// use cjapthumi::foliation::foliated_hypercubic;
    ///
    /// let lattice = foliated_hypercubic(3, 3)?;
    /// let vertex = lattice.global_vertex(1, 13);
    /// let neighbors = lattice.spatial_neighbors(vertex);
    /// assert_eq!(neighbors.len(), 14);
    /// assert!(neighbors.iter().all(|&neighbor| lattice.vertex_slice(neighbor) == 1));
    /// # Ok::<(), cjapthumi::Refusal>(())
    /// ```
    pub fn spatial_neighbors(&self, global_vertex: usize) -> Vec<usize> {
        let spatial = |&(_, kind): &(_, &EdgeType)| *kind == EdgeType::Spatial;
        let other = |(&[a, b], _): (&[usize; 2], _)| match global_vertex {
            end if end == a => Some(b),
            end if end == b => Some(a),
            _ => None,
        };
        self.complex.edges.iter().zip(&self.edge_types).filter(spatial).filter_map(other).collect()
    }
}

/// The periodic lattice of `n_t` steps in time and `n_s` in each direction of space, each cell cut into 24 pentachorons. Vertex
/// (t, x, y, z) has the number `t + n_t * (x + n_s * (y + n_s * z))`. Both sizes are from 2 to 8, with at most 341 cells, `n_t * n_s^3`.
///
/// ```
/// use cjapthumi::foliation::foliated_hypercubic;
///
/// let lattice = foliated_hypercubic(3, 3)?;
/// let complex = &lattice.complex;
/// assert_eq!((complex.n_pents(), complex.n_edges(), complex.n_triangles()), (1_944, 1_215, 4_050));
/// assert!(foliated_hypercubic(1, 3).is_err());
/// # Ok::<(), cjapthumi::Refusal>(())
/// ```
///
/// # Errors
/// [`Refusal::LatticeSize`].
pub fn foliated_hypercubic(n_t: usize, n_s: usize) -> Result<FoliatedComplex, Refusal> {
    let (mut pents, mut count) = (vec![0; CELL * MOST_CELLS], 0);
    answered(unsafe { ffi::cjapthumi_foliated_hypercubic(n_t, n_s, pents.as_mut_ptr(), pents.len(), &mut count) })?;
    let complex = Complex::build(n_t * n_s.pow(3), &pents[..5 * count])?;
    let mut types = vec![0; complex.n_edges()];
    answered(unsafe { ffi::edge_types(n_t, n_s, complex.lent(), types.as_mut_ptr(), types.len()) })?;
    let vertices_per_slice = n_s.pow(3);
    let foliation = Foliation {
        complex,
        n_slices: n_t,
        vertices_per_slice,
        n_spatial: n_s,
        edge_types: types.into_iter().map(EdgeType::from_byte).collect(),
        vertex_map: (0..n_t).map(|t| (0..vertices_per_slice).map(|local| t + n_t * local).collect()).collect(),
    };
    Ok(FoliatedComplex { foliation })
}

/// The squared lengths of a lattice's edges in flat Minkowski space, with steps of `spacing` in space and of `dt` in time.
///
/// ```
/// use cjapthumi::foliation::{EdgeType, flat_minkowski_sq_lengths, foliated_hypercubic};
///
/// let lattice = foliated_hypercubic(2, 3)?;
/// let lengths = flat_minkowski_sq_lengths(&lattice, 1.0, 0.5);
/// let timelike = lattice.edge_types.iter().position(|&kind| kind == EdgeType::Timelike).unwrap();
/// assert_eq!(lengths[timelike], -0.25);
/// # Ok::<(), cjapthumi::Refusal>(())
/// ```
pub fn flat_minkowski_sq_lengths(fc: &FoliatedComplex, spacing: f64, dt: f64) -> Vec<f64> {
    let mut lengths = vec![0.0; fc.complex.n_edges()];
    let (n_t, n_s, lent) = (fc.n_slices, fc.n_spatial, fc.complex.lent());
    let number =
        unsafe { ffi::flat_minkowski_sq_lengths(n_t, n_s, lent, spacing, dt, lengths.as_mut_ptr(), lengths.len()) };
    assert_eq!(number, 0, "a lattice's own complex is not refused");
    lengths
}
