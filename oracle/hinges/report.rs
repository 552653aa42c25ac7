//! Each call of our library, and how all that it left differs from what the altered Rust and the table say.
use crate::both::{Both, Call, Outputs};
use crate::case::Case;
use crate::guards::Guarded;
use crate::tally::{Tally, of_numbers};
use crate::{checked, ffi};
use calls::table;
use hinges::distance::Distance;
use hinges::expected::{self, Answers};
use hinges::local::Hinges;

/// What guards lengths and their signs.
const GUARD: u64 = 0x5a5a_a5a5_5a5a_a5a5;

/// What was compared of each function.
#[derive(Default)]
pub struct Report {
    table: Both,
    hinge: Both,
    action: Both,
    gradient: Both,
    signs: Tally,
}

/// The unaltered Rust's distance from us.
#[derive(Default)]
pub struct Distances {
    deficits: Distance,
    action: Distance,
    gradient: Distance,
}

impl Distances {
    /// Prints the three, which are those of complexes of this name and of such inputs of the table.
    pub fn print(&self, name: &str, inputs: &str) {
        let distances = [
            (&self.deficits, "deficits", "lorentzian_deficit_angles"),
            (&self.action, "action", "lorentzian_regge_action"),
            (&self.gradient, "gradient", "lorentzian_regge_action_grad"),
        ];
        print_distances(&distances, name, inputs);
    }
}

/// Prints distances, each with what it is of and the operation, as those of complexes of this name and of such inputs of the table.
pub fn print_distances(distances: &[(&Distance, &str, &str)], name: &str, inputs: &str) {
    for (distance, what, operation) in distances {
        distance.print(&format!("{what}, {name}"));
        table::distance(operation, inputs, distance);
    }
}

/// What an output of so many doubles holds before a call: numbers, and every third a NaN whose payload must stay.
pub fn doubles(room: usize) -> Vec<u64> {
    (0..room as u64).map(|place| [0x1357, 0x7ff8, 0xc0de][place as usize % 3] << 48 | place + 1).collect()
}

/// What an output of so many kinds holds before a call.
pub fn bytes(room: usize) -> Vec<u8> {
    (0..room).map(|place| (place % 250) as u8 + 3).collect()
}

/// The content of outputs that are doubles and kinds.
pub fn outputs(deficits: Vec<u64>, kinds: Vec<u8>) -> Hinges {
    Hinges { tris: vec![], deficits, kinds, count: 0 }
}

/// Takes numbers without kinds into account, ours as bits.
pub fn add_all(distance: &mut Distance, ours: &[u64], theirs: &[f64]) {
    ours.iter().zip(theirs).for_each(|(ours, theirs)| distance.add((f64::from_bits(*ours), 0), (*theirs, 0)));
}

impl Report {
    /// Asks for all deficits and kinds; the bits of the deficits, and the kinds.
    pub fn table(&mut self, kind: &str, case: &mut Case, rooms: [usize; 2]) -> (Vec<u64>, Vec<u8>) {
        let before = outputs(doubles(rooms[0]), bytes(rooms[1]));
        let (number, deficits, kinds) = expected::table(&case.expected, doubles(rooms[0]), bytes(rooms[1]));
        let (due, answers) = ((number, outputs(deficits, kinds)), case.sizes()[0]);
        let (complex, s, n) = case.lent();
        let left = self.table.ask(
            case,
            Call { kind, about: String::new(), before, due, answers },
            |Outputs { doubles: d, kinds: k, .. }| unsafe {
                checked::lorentzian_deficit_angles(complex, s, n, d.0, d.1, k.0, k.1)
            },
            |built, Outputs { doubles: d, kinds: k, .. }| unsafe {
                ffi::lorentzian_deficit_angles_built(built, s, n, d.0, d.1, k.0, k.1)
            },
        );
        (left.deficits, left.kinds)
    }

    /// Asks for one triangle's hinge.
    pub fn hinge(&mut self, kind: &str, case: &mut Case, tri: u32) {
        let (deficit, byte) = (doubles(2)[tri as usize % 2], bytes(9)[tri as usize % 9]);
        let (number, due, due_byte) = expected::hinge(&case.expected, tri, (deficit, byte));
        let due = (number, outputs(vec![due], vec![due_byte]));
        let (complex, s, n) = case.lent();
        let before = outputs(vec![deficit], vec![byte]);
        self.hinge.ask(
            case,
            Call { kind, about: format!("triangle {tri}, "), before, due, answers: 1 },
            |to| unsafe { checked::lorentzian_deficit_angle(complex, s, n, tri, to.doubles.0, to.kinds.0) },
            |built, to| unsafe { ffi::lorentzian_deficit_angle_built(built, s, n, tri, to.doubles.0, to.kinds.0) },
        );
    }

    /// Asks for the action; its bits.
    pub fn action(&mut self, kind: &str, case: &mut Case) -> u64 {
        let before = doubles(2)[case.sizes()[0] % 2];
        let (number, due) = expected::action(&case.expected, before);
        let (due, before) = ((number, outputs(vec![due], vec![])), outputs(vec![before], vec![]));
        let (complex, s, n) = case.lent();
        let left = self.action.ask(
            case,
            Call { kind, about: String::new(), before, due, answers: 1 },
            |to| unsafe { checked::lorentzian_regge_action(complex, s, n, to.doubles.0) },
            |built, to| unsafe { ffi::lorentzian_regge_action_built(built, s, n, to.doubles.0) },
        );
        left.deficits[0]
    }

    /// Asks for the gradient; its bits.
    pub fn gradient(&mut self, kind: &str, case: &mut Case, room: usize) -> Vec<u64> {
        let (number, due) = expected::gradient(&case.expected, doubles(room));
        let (due, answers) = ((number, outputs(due, vec![])), case.sizes()[1]);
        let (complex, s, n) = case.lent();
        let before = outputs(doubles(room), vec![]);
        let left = self.gradient.ask(
            case,
            Call { kind, about: String::new(), before, due, answers },
            |to| unsafe { checked::lorentzian_regge_action_grad(complex, s, n, to.doubles.0, to.doubles.1) },
            |built, to| unsafe { ffi::lorentzian_regge_action_grad_built(built, s, n, to.doubles.0, to.doubles.1) },
        );
        left.deficits
    }

    /// Asks for the signs of lengths.
    pub fn signs(&mut self, kind: &str, lengths: &[f64]) {
        let given = expected::bits(lengths);
        let mut guarded = Guarded::new(&given, GUARD);
        let mut counts = Guarded::new(&[usize::MAX; 3], GUARD as usize);
        let lent = guarded.start().cast_const().cast();
        unsafe { ffi::cjapthumi_length_signs(lent, given.len(), counts.start()) };
        let mut found: Vec<String> = guarded.complaints("lengths", &given).chain(counts.complaint("counts")).collect();
        let names = ["timelike", "null", "spacelike"].iter().zip(counts.content());
        let differ = names.zip(expected::signs(lengths)).filter_map(|((name, ours), due)| of_numbers(name, *ours, due));
        found.extend(differ);
        self.signs.add(kind, 0, || format!("{given:x?}"), &found);
    }

    /// Asks for deficits, action and gradient with outputs of just their room, and takes the unaltered Rust's distance into account; the gradient's bits.
    pub fn exact(&mut self, kind: &str, case: &mut Case, unaltered: &Answers, distances: &mut Distances) -> Vec<u64> {
        let [triangles, edges] = case.sizes();
        let (deficits, kinds) = self.table(kind, case, [triangles; 2]);
        for (tri, bits) in deficits.into_iter().enumerate() {
            let theirs = (unaltered.deficits[tri], unaltered.kinds[tri]);
            distances.deficits.add((f64::from_bits(bits), kinds[tri]), theirs);
        }
        let action = f64::from_bits(self.action(kind, case));
        distances.action.add((action, 0), (unaltered.action, 0));
        let grad = self.gradient(kind, case, edges);
        add_all(&mut distances.gradient, &grad, &unaltered.grad);
        grad
    }

    /// Prints the counts; how many calls differ.
    pub fn print(&self) -> u64 {
        let functions = [
            (&self.table, "lorentzian_deficit_angles"),
            (&self.hinge, "lorentzian_deficit_angle"),
            (&self.action, "lorentzian_regge_action"),
            (&self.gradient, "lorentzian_regge_action_grad"),
        ];
        self.signs.print("length_signs");
        functions.iter().map(|(both, name)| both.print(name)).sum::<u64>() + self.signs.differences.0
    }
}
