//! Our check behind refusal 7 alone beside the Rust's deficits, and the complex that a checked call or a core is lent.
use crate::ffi;
use crate::inputs::Input;
use crate::tables::{Effort, answered, print_table, ratio, seconds, time};
use calls::checks::{self, Check};
use phyz_regge::complex::SimplicialComplex;
use phyz_regge::lorentzian_regge::lorentzian_deficit_angles;

/// A complex with the lists that the check writes.
pub struct Checked {
    pub check: Check,
    pub outputs: [Vec<u32>; 2],
}

impl Checked {
    /// What the Rust built, checked once.
    pub fn new(complex: &SimplicialComplex) -> Checked {
        let check = Check::new(complex);
        let outputs = check.outputs.map(|length| vec![0; length]);
        let mut checked = Checked { check, outputs };
        assert_eq!(checked.make(), 0, "the complex is refused");
        checked
    }

    /// Makes the check; 0 or the refusal's number.
    pub fn make(&mut self) -> u32 {
        let lent = self.lent();
        let [edges, tris] = self.outputs.each_mut().map(|output| (output.as_mut_ptr(), output.len()));
        unsafe { ffi::check_built(lent, edges.0, edges.1, tris.0, tris.1) }
    }

    /// Makes sure that it accepts, and writes the numbers that the Rust has for each pentachoron's edges and triangles.
    pub fn verify(&mut self) {
        let due = checks::answer(&self.check, self.outputs.each_ref().map(|output| vec![0; output.len()]));
        assert_eq!((self.make(), due.number), (0, 0), "the complex is refused");
        assert!(self.outputs == due.outputs, "the numbers of edges and triangles differ");
    }

    /// The counts and the lists as they are lent.
    pub fn lent(&self) -> ffi::Lists {
        let lists = std::array::from_fn(|list| (self.check.lists[list].as_ptr(), self.check.lengths[list]));
        ffi::Lists { counts: self.check.counts.as_ptr(), lists }
    }

    /// What a core is lent, while neither counts nor lists are changed.
    pub fn core(&self) -> ffi::BuiltLists {
        let [pent_edges, pent_tris] = self.outputs.each_ref().map(|output| (output.as_ptr(), output.len()));
        ffi::BuiltLists { lists: self.lent(), pent_edges, pent_tris }
    }
}

/// Prints the table, and gives the times of the first input: ours and the Rust's.
pub fn print(effort: Effort, inputs: &[Input]) -> [f64; 2] {
    let (mut rows, mut measured) = (Vec::new(), Vec::new());
    for input in inputs {
        let mut checked = Checked::new(&input.complex);
        checked.verify();
        let [ours, rust] = effort.medians([&mut || answered(|| checked.make()), &mut || {
            seconds(|| lorentzian_deficit_angles(&input.complex, &input.lengths))
        }]);
        rows.push(vec![input.name.clone(), time(ours), time(rust), ratio(rust, ours)]);
        measured.push([ours, rust]);
    }
    print_table("check_built alone", &["", "ours", "the Rust's deficits", "Rust / ours"], &rows);
    measured[0]
}
