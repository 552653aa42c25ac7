//! Our retouch, checked and as a core, beside what the Rust needs for the same triangles: its local deficits, or all deficits.
use crate::check::Checked;
use crate::inputs::Input;
use crate::near::{assert_near, assert_same};
use crate::tables::{Effort, Row, answered, grouped, seconds};
use crate::{checked, ffi};
use phyz_regge::complex::SimplicialComplex;
use phyz_regge::lorentzian_regge::{local_deficit_angles, lorentzian_deficit_angles};

/// How far the length is moved.
const MOVED: f64 = 1e-3;

/// A retouch of a complex with lengths and a table.
pub struct Retouch {
    pub complex: Checked,
    pub lengths: Vec<f64>,
    pub edge: u32,
    moved: [f64; 2],
    deficits: Vec<f64>,
    pub kinds: Vec<u8>,
}

impl Retouch {
    /// The retouch of the middle edge before it is made, with a table of zeros.
    pub fn new(input: &Input) -> Retouch {
        let (complex, lengths) = (Checked::new(&input.complex), input.lengths.clone());
        let (edge, triangles) = (lengths.len() / 2, input.complex.triangles.len());
        let moved = [lengths[edge], lengths[edge] + MOVED];
        let (deficits, kinds) = (vec![0.0; triangles], vec![0; triangles]);
        Retouch { complex, lengths, edge: edge as u32, moved, deficits, kinds }
    }

    /// The next length: it is moved to and fro.
    fn next(&mut self) -> f64 {
        self.moved.swap(0, 1);
        self.moved[0]
    }

    /// Makes it; 0 or the refusal's number.
    pub fn make(&mut self) -> u32 {
        let (sq_length, complex, edge) = (self.next(), self.complex.lent(), self.edge);
        let (lengths, n_lengths) = (self.lengths.as_mut_ptr(), self.lengths.len());
        let (deficits, n_deficits) = (self.deficits.as_mut_ptr(), self.deficits.len());
        let (kinds, n_kinds) = (self.kinds.as_mut_ptr(), self.kinds.len());
        unsafe { checked::retouch(complex, lengths, n_lengths, edge, sq_length, deficits, n_deficits, kinds, n_kinds) }
    }

    /// The same of the core.
    pub fn make_core(&mut self) -> u32 {
        let (sq_length, complex, edge) = (self.next(), self.complex.core(), self.edge);
        let (lengths, n_lengths) = (self.lengths.as_mut_ptr(), self.lengths.len());
        let (deficits, n_deficits) = (self.deficits.as_mut_ptr(), self.deficits.len());
        let (kinds, n_kinds) = (self.kinds.as_mut_ptr(), self.kinds.len());
        unsafe {
            ffi::retouch_built(complex, lengths, n_lengths, edge, sq_length, deficits, n_deficits, kinds, n_kinds)
        }
    }
}

/// An edge and those of its pentachorons that don't meet it: each triangle of these pentachorons has one of them.
fn cover(complex: &SimplicialComplex, edge: usize) -> Vec<usize> {
    let apart = |other: &usize| complex.edges[*other].iter().all(|end| !complex.edges[edge].contains(end));
    let pents = complex.edge_to_pents[edge].iter();
    let mut cover: Vec<usize> = pents.flat_map(|&pent| complex.pent_edge_indices(pent)).filter(apart).collect();
    cover.push(edge);
    cover.sort_unstable();
    cover.dedup();
    cover
}

/// The triangles of the pentachorons with an edge.
fn touched(complex: &SimplicialComplex, edge: usize) -> Vec<usize> {
    let pents = &complex.edge_to_pents[edge];
    let touched = |tri: &usize| complex.tri_to_pents[*tri].iter().any(|pent| pents.contains(pent));
    (0..complex.triangles.len()).filter(touched).collect()
}

/// Makes sure that both give the same, and at the touched triangles about what the Rust gives.
pub fn verify(input: &Input, checked: &mut Retouch, core: &mut Retouch) {
    assert_eq!([checked.make(), core.make_core()], [0; 2], "refused");
    assert_same(&[core.lengths[core.edge as usize]], &core.moved[..1]);
    assert_same(&checked.lengths, &core.lengths);
    assert_same(&checked.deficits, &core.deficits);
    assert_eq!(checked.kinds, core.kinds, "the kinds differ");
    let (complex, edge) = (&input.complex, core.edge as usize);
    let some = local_deficit_angles(complex, &core.lengths, &cover(complex, edge));
    let every = lorentzian_deficit_angles(complex, &core.lengths);
    for tri in touched(complex, edge) {
        assert_eq!([core.kinds[tri]; 2], [some[&tri].1 as u8, every[tri].1 as u8], "the kinds differ from the Rust's");
        assert_near(&[core.deficits[tri]; 2], &[some[&tri].0, every[tri].0]);
    }
}

/// Times the retouch beside the Rust's local deficits of the triangles that it works out, and beside all deficits.
pub fn rows(effort: Effort, input: &Input) -> [Row; 2] {
    let (mut checked, mut core) = (Retouch::new(input), Retouch::new(input));
    let (complex, lengths, edge) = (&input.complex, &input.lengths, core.edge as usize);
    let free = cover(complex, edge);
    let triangles = [touched(complex, edge).len(), local_deficit_angles(complex, lengths, &free).len()];
    let [touched, met] = triangles.map(grouped);
    verify(input, &mut checked, &mut core);
    let [checked, core, local, all] = effort.medians([
        &mut || answered(|| checked.make()),
        &mut || answered(|| core.make_core()),
        &mut || seconds(|| local_deficit_angles(complex, lengths, &free)),
        &mut || seconds(|| lorentzian_deficit_angles(complex, lengths)),
    ]);
    let call = format!("retouch of {touched} triangles; Rust: local deficits of {met}");
    [
        Row { call, checked, core, rust: local },
        Row { call: "the same; Rust: all deficits".into(), checked, core, rust: all },
    ]
}
