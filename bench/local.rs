//! Our deficits, gradient and Hessian over free edges, checked and as cores, beside the Rust's, which check nothing.
use crate::check::Checked;
use crate::inputs::Input;
use crate::near::{assert_near, assert_same};
use crate::tables::{Effort, Row};
use crate::{checked, ffi};
use calls::complexes::shuffle;
use calls::random::Random;
use phyz_regge::complex::SimplicialComplex;
use phyz_regge::lorentzian_regge::{
    local_deficit_angles, local_lorentzian_regge_action_grad, local_lorentzian_regge_hessian,
};
use std::ops::Index;

/// How many free edges there are.
const FREE: [usize; 3] = [1, 10, 100];

/// The step of the Jacobians.
pub const STEP: f64 = 1e-6;

/// Calls over a complex with lengths and free edges, and the outputs that they are lent.
pub struct Local {
    pub complex: Checked,
    pub lengths: Vec<f64>,
    pub free: Vec<u32>,
    tris: Vec<u32>,
    deficits: Vec<f64>,
    kinds: Vec<u8>,
    count: usize,
    grad: Vec<f64>,
    hessian: Vec<f64>,
}

impl Local {
    /// The calls before they are made; the outputs have room for each triangle, as often as it is met.
    pub fn new(input: &Input, free: &[usize]) -> Local {
        let tris: usize = free.iter().map(|&edge| input.complex.edge_to_tris[edge].len()).sum();
        let (complex, lengths, n) = (Checked::new(&input.complex), input.lengths.clone(), free.len());
        let free = free.iter().map(|&edge| edge as u32).collect();
        let (tris, deficits, kinds) = (vec![0; tris], vec![0.0; tris], vec![0; tris]);
        let (grad, hessian) = (vec![0.0; n], vec![0.0; n * n]);
        Local { complex, lengths, free, tris, deficits, kinds, count: 0, grad, hessian }
    }

    /// Makes an output of each call too short.
    pub fn shorten(&mut self) {
        self.kinds.clear();
        self.grad.pop();
        self.hessian.pop();
    }

    /// The lengths and the free edges as they are lent.
    fn lent(&self) -> ((*const f64, usize), (*const u32, usize)) {
        ((self.lengths.as_ptr(), self.lengths.len()), (self.free.as_ptr(), self.free.len()))
    }

    /// Asks for the deficits and kinds of the triangles on free edges; 0 or the refusal's number.
    pub fn deficits(&mut self) -> u32 {
        let (complex, (lengths, free)) = (self.complex.lent(), self.lent());
        let (tris, n_tris) = (self.tris.as_mut_ptr(), self.tris.len());
        let (deficits, n_deficits) = (self.deficits.as_mut_ptr(), self.deficits.len());
        let (kinds, n_kinds, count) = (self.kinds.as_mut_ptr(), self.kinds.len(), &mut self.count);
        unsafe {
            checked::local_deficit_angles(
                complex, lengths.0, lengths.1, free.0, free.1, tris, n_tris, deficits, n_deficits, kinds, n_kinds,
                count,
            )
        }
    }

    /// The same of the core.
    pub fn deficits_core(&mut self) -> u32 {
        let (complex, (lengths, free)) = (self.complex.core(), self.lent());
        let (tris, n_tris) = (self.tris.as_mut_ptr(), self.tris.len());
        let (deficits, n_deficits) = (self.deficits.as_mut_ptr(), self.deficits.len());
        let (kinds, n_kinds, count) = (self.kinds.as_mut_ptr(), self.kinds.len(), &mut self.count);
        unsafe {
            ffi::local_deficit_angles_built(
                complex, lengths.0, lengths.1, free.0, free.1, tris, n_tris, deficits, n_deficits, kinds, n_kinds,
                count,
            )
        }
    }

    /// Asks for the gradient; 0 or the refusal's number.
    pub fn gradient(&mut self) -> u32 {
        let (complex, (lengths, free)) = (self.complex.lent(), self.lent());
        let grad = (self.grad.as_mut_ptr(), self.grad.len());
        unsafe {
            checked::local_lorentzian_regge_action_grad(complex, lengths.0, lengths.1, free.0, free.1, grad.0, grad.1)
        }
    }

    /// The same of the core.
    pub fn gradient_core(&mut self) -> u32 {
        let (complex, (lengths, free)) = (self.complex.core(), self.lent());
        let grad = (self.grad.as_mut_ptr(), self.grad.len());
        unsafe {
            ffi::local_lorentzian_regge_action_grad_built(complex, lengths.0, lengths.1, free.0, free.1, grad.0, grad.1)
        }
    }

    /// Asks for the Hessian; 0 or the refusal's number.
    pub fn hessian(&mut self) -> u32 {
        let (complex, (lengths, free)) = (self.complex.lent(), self.lent());
        let hessian = (self.hessian.as_mut_ptr(), self.hessian.len());
        unsafe {
            checked::local_lorentzian_regge_hessian(
                complex, lengths.0, lengths.1, free.0, free.1, STEP, hessian.0, hessian.1,
            )
        }
    }

    /// The same of the core.
    pub fn hessian_core(&mut self) -> u32 {
        let (complex, (lengths, free)) = (self.complex.core(), self.lent());
        let hessian = (self.hessian.as_mut_ptr(), self.hessian.len());
        unsafe {
            ffi::local_lorentzian_regge_hessian_built(
                complex, lengths.0, lengths.1, free.0, free.1, STEP, hessian.0, hessian.1,
            )
        }
    }
}

/// So many edges of a complex, any, or all where there are fewer.
pub fn some_edges(complex: &SimplicialComplex, count: usize) -> Vec<usize> {
    let mut edges: Vec<usize> = (0..complex.edges.len()).collect();
    shuffle(&mut Random(3), &mut edges);
    edges.truncate(count);
    edges
}

/// The entries of a square matrix, row after row.
pub fn entries(matrix: &impl Index<(usize, usize), Output = f64>, size: usize) -> Vec<f64> {
    (0..size * size).map(|place| matrix[(place / size, place % size)]).collect()
}

/// Makes sure that checked calls and cores give the same, and about what the Rust gives.
pub fn verify(input: &Input, free: &[usize], checked: &mut Local, core: &mut Local) {
    let numbers = [checked.deficits(), checked.gradient(), checked.hessian()];
    let cores = [core.deficits_core(), core.gradient_core(), core.hessian_core()];
    assert_eq!((numbers, cores), ([0; 3], [0; 3]), "refused");
    assert_same(&checked.deficits, &core.deficits);
    assert_same(&checked.grad, &core.grad);
    assert_same(&checked.hessian, &core.hessian);
    assert_eq!((&checked.tris, &checked.kinds), (&core.tris, &core.kinds), "the triangles differ");
    let (complex, lengths, count) = (&input.complex, &input.lengths, core.count);
    let hinges = local_deficit_angles(complex, lengths, free);
    let at = |tri: &u32| (hinges[&(*tri as usize)].0, hinges[&(*tri as usize)].1 as u8);
    let (deficits, kinds): (Vec<f64>, Vec<u8>) = core.tris[..count].iter().map(at).unzip();
    assert_eq!((hinges.len(), &kinds[..]), (count, &core.kinds[..count]), "the kinds differ from the Rust's");
    assert_near(&core.deficits[..count], &deficits);
    assert_near(&core.grad, &local_lorentzian_regge_action_grad(complex, lengths, free));
    let hessian = local_lorentzian_regge_hessian(complex, lengths, free, STEP);
    assert_near(&core.hessian, &entries(&hessian, free.len()));
}

/// Times the three calls over so many free edges.
fn rows_over(effort: Effort, input: &Input, count: usize) -> [Row; 3] {
    let free = &some_edges(&input.complex, count);
    let (mut checked, mut core) = (Local::new(input, free), Local::new(input, free));
    verify(input, free, &mut checked, &mut core);
    let (complex, lengths) = (&input.complex, &input.lengths);
    let name = |call: &str| format!("local {call}, {} free", free.len());
    [
        effort.row(
            name("deficits"),
            || checked.deficits(),
            || core.deficits_core(),
            || local_deficit_angles(complex, lengths, free),
        ),
        effort.row(
            name("gradient"),
            || checked.gradient(),
            || core.gradient_core(),
            || local_lorentzian_regge_action_grad(complex, lengths, free),
        ),
        effort.row(
            name("Hessian"),
            || checked.hessian(),
            || core.hessian_core(),
            || local_lorentzian_regge_hessian(complex, lengths, free, STEP),
        ),
    ]
}

/// Times the calls over few and many free edges.
pub fn rows(effort: Effort, input: &Input) -> Vec<Row> {
    FREE.into_iter().flat_map(|count| rows_over(effort, input, count)).collect()
}
