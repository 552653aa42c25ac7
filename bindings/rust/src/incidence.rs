//! What a complex has to read: its faces, their numbers, and which lie in which.
use crate::complex::{Edge, Pent, Tet, Triangle};
use std::collections::{BTreeMap, btree_map};
use std::fmt;
use std::ops::Deref;
use std::sync::{Arc, OnceLock};

/// The number of each face by its vertices: a map, worked out when it is first asked for.
///
/// ```
/// use cjapthumi::Complex;
///
/// let complex = Complex::from_pentachorons(5, &[[0, 1, 2, 3, 4]])?;
/// assert_eq!(complex.edge_index[&[3, 4]], 9);
/// assert_eq!(complex.edge_index.get(&[4, 3]), None);
/// # Ok::<(), cjapthumi::Refusal>(())
/// ```
#[derive(Clone)]
pub struct FaceIndex<const N: usize> {
    rows: Arc<Vec<u32>>,
    numbers: OnceLock<BTreeMap<[usize; N], usize>>,
}

impl<const N: usize> FaceIndex<N> {
    /// The index of the faces that stand in a list of the library.
    fn new(rows: &Arc<Vec<u32>>) -> FaceIndex<N> {
        FaceIndex { rows: Arc::clone(rows), numbers: OnceLock::new() }
    }
}

impl<const N: usize> Deref for FaceIndex<N> {
    type Target = BTreeMap<[usize; N], usize>;

    fn deref(&self) -> &BTreeMap<[usize; N], usize> {
        self.numbers.get_or_init(|| rows(&self.rows).into_iter().zip(0..).collect())
    }
}

impl<const N: usize> PartialEq for FaceIndex<N> {
    fn eq(&self, other: &FaceIndex<N>) -> bool {
        self.rows == other.rows
    }
}

impl<const N: usize> Eq for FaceIndex<N> {}

impl<const N: usize> fmt::Debug for FaceIndex<N> {
    fn fmt(&self, f: &mut fmt::Formatter<'_>) -> fmt::Result {
        (**self).fmt(f)
    }
}

impl<'a, const N: usize> IntoIterator for &'a FaceIndex<N> {
    type Item = (&'a [usize; N], &'a usize);
    type IntoIter = btree_map::Iter<'a, [usize; N], usize>;

    fn into_iter(self) -> btree_map::Iter<'a, [usize; N], usize> {
        self.iter()
    }
}

/// The faces of a [`Complex`](crate::Complex) and what lies in what, under the names of phyz-regge's fields.
#[derive(Debug, Clone)]
#[non_exhaustive]
pub struct Incidence {
    /// How many vertices there are.
    pub n_vertices: usize,
    /// The edges.
    pub edges: Vec<Edge>,
    /// The number of each edge.
    pub edge_index: FaceIndex<2>,
    /// The triangles: in 4D they are the hinges.
    pub triangles: Vec<Triangle>,
    /// The number of each triangle.
    pub tri_index: FaceIndex<3>,
    /// The tets.
    pub tets: Vec<Tet>,
    /// The number of each tet.
    pub tet_index: FaceIndex<4>,
    /// The pentachorons, in the order in which they were given.
    pub pents: Vec<Pent>,
    /// For each triangle the pentachorons in which it lies, ascending.
    pub tri_to_pents: Vec<Vec<usize>>,
    /// For each edge the triangles in which it lies, ascending.
    pub edge_to_tris: Vec<Vec<usize>>,
    /// For each edge the pentachorons in which it lies, ascending.
    pub edge_to_pents: Vec<Vec<usize>>,
}

impl Incidence {
    /// What is read from counts and lists of the library.
    pub(crate) fn new(counts: &[usize; 5], lists: &[Arc<Vec<u32>>; 10]) -> Incidence {
        Incidence {
            n_vertices: counts[0],
            edges: rows(&lists[1]),
            edge_index: FaceIndex::new(&lists[1]),
            triangles: rows(&lists[2]),
            tri_index: FaceIndex::new(&lists[2]),
            tets: rows(&lists[3]),
            tet_index: FaceIndex::new(&lists[3]),
            pents: rows(&lists[0]),
            tri_to_pents: adjacency(&lists[4], &lists[5]),
            edge_to_tris: adjacency(&lists[6], &lists[7]),
            edge_to_pents: adjacency(&lists[8], &lists[9]),
        }
    }
}

/// The lists that stand in the library's items and starts, for the reader.
fn adjacency(items: &[u32], starts: &[u32]) -> Vec<Vec<usize>> {
    let list = |ends: &[u32]| items[ends[0] as usize..ends[1] as usize].iter().map(|&item| item as usize).collect();
    starts.windows(2).map(list).collect()
}

/// The rows of a list, for the reader.
fn rows<const N: usize>(list: &[u32]) -> Vec<[usize; N]> {
    list.as_chunks().0.iter().map(|row: &[u32; N]| row.map(|number| number as usize)).collect()
}
