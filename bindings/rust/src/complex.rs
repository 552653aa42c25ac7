//! Simplicial complexes in 4D: pentachorons, their faces, and which lie in which.
use crate::ffi::{self, BuiltLists, Lists};
use crate::incidence::Incidence;
use crate::refusal::{Refusal, answered_at};
use std::fmt;
use std::ops::Deref;
use std::sync::Arc;

/// An edge's two vertices, ascending.
pub type Edge = [usize; 2];
/// A triangle's three vertices, ascending.
pub type Triangle = [usize; 3];
/// A tet's four vertices, ascending.
pub type Tet = [usize; 4];
/// A pentachoron's five vertices, ascending.
pub type Pent = [usize; 5];

/// The number of an edge, where only an edge can be meant.
#[derive(Debug, Clone, Copy, PartialEq, Eq, Hash, PartialOrd, Ord)]
pub struct EdgeNumber(pub usize);

/// The number of a triangle, where only a triangle can be meant.
#[derive(Debug, Clone, Copy, PartialEq, Eq, Hash, PartialOrd, Ord)]
pub struct TriangleNumber(pub usize);

/// The name that phyz-regge gives a complex.
pub type SimplicialComplex = Complex;

/// The most pentachorons that a complex may have.
const MOST_PENTS: usize = 8_192;

/// How many places each of the ten lists needs: so many for each pentachoron, and so many besides.
const ROOMS: [(usize, usize); 10] =
    [(5, 0), (20, 0), (30, 0), (20, 0), (10, 0), (10, 1), (30, 0), (10, 1), (10, 0), (10, 1)];

/// A 4D simplicial complex with its incidence, as the library's builder makes it.
///
/// Edges, triangles and tets are numbered by first meeting, in the order of the pentachorons. What phyz-regge has as fields is read
/// as fields here too, those of [`Incidence`]:
///
/// ```
/// use cjapthumi::Complex;
///
/// let complex = Complex::from_pentachorons(6, &[[4, 3, 2, 1, 0], [1, 2, 3, 4, 5]])?;
/// assert_eq!((complex.n_edges(), complex.n_triangles(), complex.n_pents()), (14, 16, 2));
/// assert_eq!(complex.pents[0], [0, 1, 2, 3, 4]);
/// let shared = complex.tri_index[&[1, 2, 3]];
/// assert_eq!(complex.tri_to_pents[shared], [0, 1]);
/// # Ok::<(), cjapthumi::Refusal>(())
/// ```
///
/// Nothing changes a complex once it is built, and the calls over it rely on that. A copy of what is read can be changed:
///
/// ```
/// # use cjapthumi::Complex;
/// let mut complex = Complex::from_pentachorons(5, &[[0, 1, 2, 3, 4]]).unwrap();
/// let mut edges = complex.edges.clone();
/// edges[0] = [0, 2];
/// # complex = complex.clone();
/// ```
///
/// This does not compile:
///
/// ```compile_fail
/// # use cjapthumi::Complex;
/// let mut complex = Complex::from_pentachorons(5, &[[0, 1, 2, 3, 4]]).unwrap();
/// let edges = &mut complex.edges;
/// edges[0] = [0, 2];
/// ```
#[derive(Clone)]
pub struct Complex {
    /// What the library is lent: counts, the ten lists, and each pentachoron's edges and triangles.
    counts: [usize; 5],
    lists: [Arc<Vec<u32>>; 10],
    pent_edges: Vec<u32>,
    pent_tris: Vec<u32>,

    /// The same for the reader.
    incidence: Incidence,
}

impl Deref for Complex {
    type Target = Incidence;

    fn deref(&self) -> &Incidence {
        &self.incidence
    }
}

impl fmt::Debug for Complex {
    fn fmt(&self, f: &mut fmt::Formatter<'_>) -> fmt::Result {
        f.debug_tuple("Complex").field(&self.incidence).finish()
    }
}

impl Complex {
    /// Builds the complex of a list of pentachorons, five vertices each, in any order; a repeated pentachoron stays. It may have 1 to
    /// 4,096 vertices and up to 8,192 pentachorons.
    ///
    /// # Errors
    /// [`Refusal::VertexCount`], [`Refusal::ListLength`], then for the earliest pentachoron that has it [`Refusal::VertexTooLarge`]
    /// before [`Refusal::RepeatedVertex`].
    pub fn from_pentachorons(n_vertices: usize, pents: &[[usize; 5]]) -> Result<Complex, Refusal> {
        let given: Vec<u32> = pents.iter().take(MOST_PENTS + 1).flatten().map(|&vertex| narrowed(vertex)).collect();
        Complex::build(n_vertices, &given)
    }

    /// Builds the complex of pentachorons that stand one after the other.
    pub(crate) fn build(n_vertices: usize, given: &[u32]) -> Result<Complex, Refusal> {
        let mut lists = ROOMS.map(|(for_each, besides)| vec![0; for_each * (given.len() / 5) + besides]);
        let (mut counts, mut place) = ([0; 5], 0);
        let lent = lists.each_mut().map(|list| (list.as_mut_ptr(), list.len()));
        let given = (given.as_ptr(), given.len());
        let number = unsafe { ffi::from_pentachorons(n_vertices, given, lent, counts.as_mut_ptr(), &mut place) };
        answered_at(number, place)?;
        Ok(Complex::check(counts, cut(&counts, lists).map(Arc::new)))
    }

    /// The complex of counts and lists that the builder wrote. The check is made here, once: the calls over a complex rely on it.
    fn check(counts: [usize; 5], lists: [Arc<Vec<u32>>; 10]) -> Complex {
        let (mut pent_edges, mut pent_tris) = (vec![0; 10 * counts[1]], vec![0; 10 * counts[1]]);
        let number = unsafe {
            ffi::check_built(
                lent(&counts, &lists),
                pent_edges.as_mut_ptr(),
                pent_edges.len(),
                pent_tris.as_mut_ptr(),
                pent_tris.len(),
            )
        };
        assert_eq!(number, 0, "what the builder writes is built");
        let incidence = Incidence::new(&counts, &lists);
        Complex { counts, lists, pent_edges, pent_tris, incidence }
    }

    /// Counts and lists as a checked call of the library takes them.
    pub(crate) fn lent(&self) -> Lists {
        lent(&self.counts, &self.lists)
    }

    /// All that a core of the library takes of a complex.
    pub(crate) fn built(&self) -> BuiltLists {
        let (pent_edges, pent_tris) = (&self.pent_edges, &self.pent_tris);
        BuiltLists {
            lists: self.lent(),
            pent_edges: (pent_edges.as_ptr(), pent_edges.len()),
            pent_tris: (pent_tris.as_ptr(), pent_tris.len()),
        }
    }

    /// How many edges there are, and so how many squared lengths the calls take.
    pub fn n_edges(&self) -> usize {
        self.edges.len()
    }

    /// How many triangles there are.
    pub fn n_triangles(&self) -> usize {
        self.triangles.len()
    }

    /// How many pentachorons there are.
    pub fn n_pents(&self) -> usize {
        self.pents.len()
    }

    /// The numbers of a pentachoron's ten edges 01, 02, 03, 04, 12, 13, 14, 23, 24, 34.
    ///
    /// # Panics
    /// If there is no pentachoron of this number.
    pub fn pent_edge_indices(&self, pent_idx: usize) -> [usize; 10] {
        ten(&self.pent_edges, pent_idx)
    }

    /// The numbers of a pentachoron's ten triangles 012, 013, 014, 023, 024, 034, 123, 124, 134, 234.
    ///
    /// # Panics
    /// If there is no pentachoron of this number.
    pub fn pent_tri_indices(&self, pent_idx: usize) -> [usize; 10] {
        ten(&self.pent_tris, pent_idx)
    }

    /// What a list with an entry for each edge has for a pentachoron's ten edges.
    ///
    /// # Panics
    /// If there is no pentachoron of this number, or the list is too short.
    pub fn pent_edge_lengths(&self, pent_idx: usize, lengths: &[f64]) -> [f64; 10] {
        self.pent_edge_indices(pent_idx).map(|edge| lengths[edge])
    }

    /// The numbers of a triangle's three edges 01, 02, 12.
    ///
    /// # Panics
    /// If there is no triangle of this number.
    pub fn tri_edge_indices(&self, tri_idx: usize) -> [usize; 3] {
        let [a, b, c] = self.triangles[tri_idx];
        [[a, b], [a, c], [b, c]].map(|edge| self.edge_index[&edge])
    }

    /// What a list with an entry for each edge has for a triangle's three edges.
    ///
    /// # Panics
    /// If there is no triangle of this number, or the list is too short.
    pub fn tri_edge_lengths(&self, tri_idx: usize, lengths: &[f64]) -> [f64; 3] {
        self.tri_edge_indices(tri_idx).map(|edge| lengths[edge])
    }
}

/// A number as the library takes it: one that is too large for it is so for every complex.
pub(crate) fn narrowed(number: usize) -> u32 {
    u32::try_from(number).unwrap_or(u32::MAX)
}

/// The lists without the places that the builder left.
fn cut(counts: &[usize; 5], mut lists: [Vec<u32>; 10]) -> [Vec<u32>; 10] {
    let [_, pents, edges, triangles, tets] = *counts;
    let items = [(5, triangles), (7, edges), (9, edges)].map(|(starts, faces)| lists[starts][faces] as usize);
    let lengths = [
        5 * pents,
        2 * edges,
        3 * triangles,
        4 * tets,
        items[0],
        triangles + 1,
        items[1],
        edges + 1,
        items[2],
        edges + 1,
    ];
    for (list, length) in lists.iter_mut().zip(lengths) {
        list.truncate(length);
        list.shrink_to_fit();
    }
    lists
}

/// Counts and lists as the library takes them.
fn lent(counts: &[usize; 5], lists: &[Arc<Vec<u32>>; 10]) -> Lists {
    Lists { counts: counts.as_ptr(), lists: lists.each_ref().map(|list| (list.as_ptr(), list.len())) }
}

/// Row `number` of a list of rows of ten.
fn ten(list: &[u32], number: usize) -> [usize; 10] {
    list.as_chunks().0[number].map(|face: u32| face as usize)
}
