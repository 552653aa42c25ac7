//! Our deficits, action, gradient and hinge of one triangle, checked and as cores, beside the Rust's, which check nothing.
use crate::check::Checked;
use crate::inputs::Input;
use crate::near::{assert_near, assert_same};
use crate::tables::{Effort, Row};
use crate::{checked, ffi};
use phyz_regge::lorentzian_regge::{
    local_deficit_angles, lorentzian_deficit_angles, lorentzian_regge_action, lorentzian_regge_action_grad,
};

/// Calls over a complex with lengths, and the outputs that they are lent.
pub struct Hinges {
    pub complex: Checked,
    pub lengths: Vec<f64>,
    pub tri: u32,
    pub deficits: Vec<f64>,
    kinds: Vec<u8>,
    deficit: f64,
    kind: u8,
    action: f64,
    pub grad: Vec<f64>,
    signs: [usize; 3],
}

impl Hinges {
    /// The calls before they are made; the triangle is the middle one.
    pub fn new(input: &Input) -> Hinges {
        let (triangles, edges) = (input.complex.triangles.len(), input.complex.edges.len());
        let (complex, lengths) = (Checked::new(&input.complex), input.lengths.clone());
        let (deficits, kinds, grad) = (vec![0.0; triangles], vec![0; triangles], vec![0.0; edges]);
        let tri = (triangles / 2) as u32;
        Hinges { complex, lengths, tri, deficits, kinds, deficit: 0.0, kind: 0, action: 0.0, grad, signs: [0; 3] }
    }

    /// What a checked call is lent first.
    fn lent(&self) -> (ffi::Lists, *const f64, usize) {
        (self.complex.lent(), self.lengths.as_ptr(), self.lengths.len())
    }

    /// What a core is lent first.
    fn core(&self) -> (ffi::BuiltLists, *const f64, usize) {
        (self.complex.core(), self.lengths.as_ptr(), self.lengths.len())
    }

    /// Asks for all deficits and kinds; 0 or the refusal's number.
    pub fn deficits(&mut self) -> u32 {
        let (complex, lengths, n_lengths) = self.lent();
        let (deficits, n_deficits) = (self.deficits.as_mut_ptr(), self.deficits.len());
        let (kinds, n_kinds) = (self.kinds.as_mut_ptr(), self.kinds.len());
        unsafe { checked::lorentzian_deficit_angles(complex, lengths, n_lengths, deficits, n_deficits, kinds, n_kinds) }
    }

    /// The same of the core.
    pub fn deficits_core(&mut self) -> u32 {
        let (complex, lengths, n_lengths) = self.core();
        let (deficits, n_deficits) = (self.deficits.as_mut_ptr(), self.deficits.len());
        let (kinds, n_kinds) = (self.kinds.as_mut_ptr(), self.kinds.len());
        unsafe {
            ffi::lorentzian_deficit_angles_built(complex, lengths, n_lengths, deficits, n_deficits, kinds, n_kinds)
        }
    }

    /// Asks for one triangle's hinge; 0 or the refusal's number.
    pub fn hinge(&mut self) -> u32 {
        let (complex, lengths, n_lengths) = self.lent();
        let (deficit, kind) = (&mut self.deficit, &mut self.kind);
        unsafe { checked::lorentzian_deficit_angle(complex, lengths, n_lengths, self.tri, deficit, kind) }
    }

    /// The same of the core.
    pub fn hinge_core(&mut self) -> u32 {
        let (complex, lengths, n_lengths) = self.core();
        let (deficit, kind) = (&mut self.deficit, &mut self.kind);
        unsafe { ffi::lorentzian_deficit_angle_built(complex, lengths, n_lengths, self.tri, deficit, kind) }
    }

    /// Asks for the action; 0 or the refusal's number.
    pub fn action(&mut self) -> u32 {
        let (complex, lengths, n_lengths) = self.lent();
        unsafe { checked::lorentzian_regge_action(complex, lengths, n_lengths, &mut self.action) }
    }

    /// The same of the core.
    pub fn action_core(&mut self) -> u32 {
        let (complex, lengths, n_lengths) = self.core();
        unsafe { ffi::lorentzian_regge_action_built(complex, lengths, n_lengths, &mut self.action) }
    }

    /// Asks for the gradient; 0 or the refusal's number.
    pub fn gradient(&mut self) -> u32 {
        let (complex, lengths, n_lengths) = self.lent();
        let (grad, n_grad) = (self.grad.as_mut_ptr(), self.grad.len());
        unsafe { checked::lorentzian_regge_action_grad(complex, lengths, n_lengths, grad, n_grad) }
    }

    /// The same of the core.
    pub fn gradient_core(&mut self) -> u32 {
        let (complex, lengths, n_lengths) = self.core();
        let (grad, n_grad) = (self.grad.as_mut_ptr(), self.grad.len());
        unsafe { ffi::lorentzian_regge_action_grad_built(complex, lengths, n_lengths, grad, n_grad) }
    }

    /// Asks for the signs; 0, since nothing is refused.
    pub fn signs(&mut self) -> u32 {
        unsafe { ffi::cjapthumi_length_signs(self.lengths.as_ptr(), self.lengths.len(), self.signs.as_mut_ptr()) };
        0
    }
}

/// Makes sure that checked calls and cores give the same, and about what the Rust gives.
pub fn verify(input: &Input, checked: &mut Hinges, core: &mut Hinges) {
    let (complex, lengths) = (&input.complex, &input.lengths);
    let numbers = [checked.deficits(), checked.hinge(), checked.action(), checked.gradient()];
    let cores = [core.deficits_core(), core.hinge_core(), core.action_core(), core.gradient_core()];
    assert_eq!((numbers, cores), ([0; 4], [0; 4]), "refused");
    assert_same(&checked.deficits, &core.deficits);
    assert_same(&checked.grad, &core.grad);
    assert_same(&[checked.action, checked.deficit], &[core.action, core.deficit]);
    assert_eq!((&checked.kinds, checked.kind), (&core.kinds, core.kind), "the kinds differ");
    let (deficits, kinds): (Vec<f64>, Vec<u8>) =
        lorentzian_deficit_angles(complex, lengths).into_iter().map(|(deficit, kind)| (deficit, kind as u8)).unzip();
    assert_near(&core.deficits, &deficits);
    assert_near(&core.grad, &lorentzian_regge_action_grad(complex, lengths));
    assert_near(&[core.action], &[lorentzian_regge_action(complex, lengths)]);
    let tri = core.tri as usize;
    assert_eq!((&core.kinds, core.kind), (&kinds, kinds[tri]), "the kinds differ from the Rust's");
    assert_same(&[core.deficit], &[core.deficits[tri]]);
}

/// Times deficits, action, gradient and one hinge; the Rust's for one triangle are the deficits around one of its edges.
pub fn rows(effort: Effort, input: &Input) -> Vec<Row> {
    let (mut checked, mut core) = (Hinges::new(input), Hinges::new(input));
    verify(input, &mut checked, &mut core);
    let (complex, lengths) = (&input.complex, &input.lengths);
    let edge = complex.tri_edge_indices(core.tri as usize)[0];
    vec![
        effort.row(
            "deficits".into(),
            || checked.deficits(),
            || core.deficits_core(),
            || lorentzian_deficit_angles(complex, lengths),
        ),
        effort.row(
            "action".into(),
            || checked.action(),
            || core.action_core(),
            || lorentzian_regge_action(complex, lengths),
        ),
        effort.row(
            "gradient".into(),
            || checked.gradient(),
            || core.gradient_core(),
            || lorentzian_regge_action_grad(complex, lengths),
        ),
        effort.row(
            "one hinge; Rust: those around an edge".into(),
            || checked.hinge(),
            || core.hinge_core(),
            || local_deficit_angles(complex, lengths, &[edge]),
        ),
    ]
}
