//! What a retouch must leave: the refusals by the table of 01-scope.md, the triangles by their vertices, the records by the altered Rust.
use altered::lorentzian_regge::lorentzian_deficit_angles;
use hinges::expected::bits;
use phyz_regge::complex::SimplicialComplex;

/// A table of hinges: the bits of the deficits, and the kinds.
#[derive(Clone, Default)]
pub struct Table {
    pub deficits: Vec<u64>,
    pub kinds: Vec<u8>,
}

/// A length that is to stand at an edge.
#[derive(Clone, Copy)]
pub struct Change {
    pub edge: u32,
    pub length: f64,
}

/// The table worked out anew from lengths.
pub fn anew(complex: &SimplicialComplex, lengths: &[f64]) -> Table {
    let hinges = lorentzian_deficit_angles(complex, lengths);
    let (deficits, kinds): (Vec<f64>, _) = hinges.into_iter().map(|(deficit, kind)| (deficit, kind as u8)).unzip();
    Table { deficits: bits(&deficits), kinds }
}

/// The pentachorons that have both ends of an edge.
pub fn holders(complex: &SimplicialComplex, edge: usize) -> Vec<[usize; 5]> {
    let ends = complex.edges[edge];
    complex.pents.iter().filter(|pent| ends.iter().all(|end| pent.contains(end))).copied().collect()
}

/// The triangles whose three vertices are among the five of one of these pentachorons, ascending.
pub fn within(complex: &SimplicialComplex, pents: &[[usize; 5]]) -> Vec<usize> {
    let lies = |tri: usize| pents.iter().any(|pent| complex.triangles[tri].iter().all(|vertex| pent.contains(vertex)));
    (0..complex.triangles.len()).filter(|&tri| lies(tri)).collect()
}

/// The number of a call with an edge and a table of so many deficits and kinds: 7 or 8 of what isn't accepted, 9, 5, 0.
pub fn number(accepted: &Result<SimplicialComplex, u32>, edge: u32, table: &Table) -> u32 {
    match accepted {
        Err(number) => *number,
        Ok(complex) if edge as usize >= complex.edges.len() => 9,
        Ok(complex) if table.deficits.len().min(table.kinds.len()) < complex.triangles.len() => 5,
        Ok(_) => 0,
    }
}

/// The table after a retouch: the records of these triangles are the new ones.
pub fn left(before: &Table, tris: &[usize], anew: &Table) -> Table {
    let mut left = before.clone();
    for &tri in tris {
        left.deficits[tri] = anew.deficits[tri];
        left.kinds[tri] = anew.kinds[tri];
    }
    left
}
