//! Each call of our library over free edges, and how all that it left differs from what the altered Rust and the table say.
use crate::both::{Both, Call, Outputs, Read, of_doubles};
use crate::case::Case;
use crate::checked;
use crate::ffi::{self, BuiltLists};
use crate::guards::Guarded;
use crate::report::{add_all, bytes, doubles, outputs, print_distances};
use crate::tally::of_values;
use calls::differences::Differences;
use calls::table;
use hinges::distance::Distance;
use hinges::local::{self, Answers, Free, Hinges};
use phyz_regge::complex::SimplicialComplex;

/// What guards free edges.
const GUARD_NUMBER: u32 = 0x5a5a_a5a5;

/// What the count holds before a call.
const COUNT: usize = 0x1357_c0de;

/// How many places an output is lent at most where the call is refused.
const MOST: usize = 20_000;

/// What was compared of each function.
#[derive(Default)]
pub struct LocalReport {
    hinges: Both,
    gradient: Both,
    hessian: Both,
    entries: Entries,
}

/// Gradients that were asked for twice and compared with our gradient of all edges: no calls of their own.
#[derive(Default)]
struct Entries {
    compared: u64,
    differences: Differences,
}

/// The unaltered Rust's distance from us.
#[derive(Default)]
pub struct LocalDistances {
    deficits: Distance,
    gradient: Distance,
    hessian: Distance,
}

impl LocalDistances {
    /// Prints the three, which are those of complexes of this name and of such inputs of the table.
    pub fn print(&self, name: &str, inputs: &str) {
        let distances = [
            (&self.deficits, "local deficits", "local_deficit_angles"),
            (&self.gradient, "local gradient", "local_lorentzian_regge_action_grad"),
            (&self.hessian, "local Hessian", "local_lorentzian_regge_hessian"),
        ];
        print_distances(&distances, name, inputs);
    }
}

/// A case with free edges between guards, and the altered Rust's answers, or 7, 8, 9 or 10.
pub struct Asked<'a, 'b> {
    case: &'a mut Case<'b>,
    free: &'a Free,
    guarded: Guarded<u32>,
    pub expected: Result<Answers, u32>,
}

impl<'a, 'b> Asked<'a, 'b> {
    /// Free edges of a case.
    pub fn new(case: &'a mut Case<'b>, lengths: &[f64], free: &'a Free) -> Self {
        let expected = local::over(&case.accepted, lengths, free);
        Asked { case, free, guarded: Guarded::new(&free.edges, GUARD_NUMBER), expected }
    }

    /// The complex and the answers, where the call isn't refused.
    pub fn accepted(&self) -> (&SimplicialComplex, &Answers) {
        (self.case.accepted.as_ref().ok().unwrap(), self.expected.as_ref().ok().unwrap())
    }

    /// How many places the hinges, the gradient and the Hessian ask for; where the call is refused, about so many.
    pub fn sizes(&self) -> [usize; 3] {
        let free = self.free.edges.len();
        match &self.expected {
            Ok(answers) => [answers.tris.len(), free, free * free],
            Err(_) => [self.case.sizes()[0], free.min(MOST), (free * free).min(MOST)],
        }
    }

    /// The free edges as they are lent.
    fn lent(&mut self) -> (*const u32, usize) {
        (self.guarded.start().cast_const(), self.free.edges.len())
    }
}

impl Read for Asked<'_, '_> {
    fn built(&mut self) -> Option<BuiltLists> {
        self.case.built()
    }

    fn stray(&self) -> Vec<String> {
        let free = self.guarded.complaints("free edges", &self.free.edges);
        self.case.stray().into_iter().chain(free).collect()
    }

    fn shown(&self) -> String {
        let Free { edges, fd_eps } = self.free;
        let (first, count, step) = (&edges[..edges.len().min(40)], edges.len(), fd_eps.to_bits());
        format!("{count} free edges {first:?}, step {step:016x}, {}", self.case.shown())
    }
}

/// What an output of so many triangles holds before a call.
fn numbers(room: usize) -> Vec<u32> {
    (0..room as u32).map(|place| 0xc0de_0000 + place).collect()
}

impl LocalReport {
    /// Asks for the hinges on free edges; the outputs.
    pub fn hinges(&mut self, kind: &str, asked: &mut Asked, rooms: [usize; 3]) -> Hinges {
        let before =
            Hinges { tris: numbers(rooms[0]), deficits: doubles(rooms[1]), kinds: bytes(rooms[2]), count: COUNT };
        let due = local::hinges(&asked.expected, before.clone());
        let call = Call { kind, about: String::new(), before, due, answers: asked.sizes()[0] };
        let ((complex, s, n), free) = (asked.case.lent(), asked.lent());
        let checked = |Outputs { tris: t, doubles: d, kinds: k, count }: Outputs| unsafe {
            checked::local_deficit_angles(complex, s, n, free.0, free.1, t.0, t.1, d.0, d.1, k.0, k.1, count)
        };
        let core = |built: BuiltLists, Outputs { tris: t, doubles: d, kinds: k, count }: Outputs| unsafe {
            ffi::local_deficit_angles_built(built, s, n, free.0, free.1, t.0, t.1, d.0, d.1, k.0, k.1, count)
        };
        self.hinges.ask(asked, call, checked, core)
    }

    /// Asks for the gradient at free edges; its bits.
    pub fn gradient(&mut self, kind: &str, asked: &mut Asked, room: usize) -> Vec<u64> {
        let due = local::gradient(&asked.expected, doubles(room));
        let call = one_output(kind, room, due, asked.sizes()[1]);
        let ((complex, s, n), free) = (asked.case.lent(), asked.lent());
        let checked = |Outputs { doubles: (grad, room), .. }: Outputs| unsafe {
            checked::local_lorentzian_regge_action_grad(complex, s, n, free.0, free.1, grad, room)
        };
        let core = |built: BuiltLists, Outputs { doubles: (grad, room), .. }: Outputs| unsafe {
            ffi::local_lorentzian_regge_action_grad_built(built, s, n, free.0, free.1, grad, room)
        };
        self.gradient.ask(asked, call, checked, core).deficits
    }

    /// Asks for the Hessian at free edges; its bits.
    pub fn hessian(&mut self, kind: &str, asked: &mut Asked, room: usize) -> Vec<u64> {
        let due = local::hessian(&asked.expected, doubles(room));
        let call = one_output(kind, room, due, asked.sizes()[2]);
        let ((complex, s, n), free, fd_eps) = (asked.case.lent(), asked.lent(), asked.free.fd_eps);
        let checked = |Outputs { doubles: (hessian, room), .. }: Outputs| unsafe {
            checked::local_lorentzian_regge_hessian(complex, s, n, free.0, free.1, fd_eps, hessian, room)
        };
        let core = |built: BuiltLists, Outputs { doubles: (hessian, room), .. }: Outputs| unsafe {
            ffi::local_lorentzian_regge_hessian_built(built, s, n, free.0, free.1, fd_eps, hessian, room)
        };
        self.hessian.ask(asked, call, checked, core).deficits
    }

    /// Asks for all three with outputs of just their room, the gradient twice and beside the one of all edges, and takes the unaltered Rust's distance into account.
    pub fn exact(
        &mut self,
        kind: &str,
        asked: &mut Asked,
        global: &[u64],
        theirs: &Answers,
        distances: &mut LocalDistances,
    ) {
        let [tris, free, entries] = asked.sizes();
        let hinges = self.hinges(kind, asked, [tris; 3]);
        let grad = self.gradient(kind, asked, free);
        let again = self.gradient(kind, asked, free);
        let of_all: Vec<u64> = asked.free.edges.iter().map(|&edge| global[edge as usize]).collect();
        let found = [of_values("again", &again, &grad), of_doubles("of all edges", &grad, &of_all, free)];
        self.entries.compared += 1;
        found
            .into_iter()
            .flatten()
            .for_each(|found| self.entries.differences.add(&format!("{}\n  {found}", asked.shown())));
        let hessian = self.hessian(kind, asked, entries);
        let ours = hinges.deficits.iter().map(|bits| f64::from_bits(*bits)).zip(hinges.kinds);
        let angles = theirs.deficits.iter().copied().zip(theirs.kinds.iter().copied());
        ours.zip(angles).for_each(|(ours, theirs)| distances.deficits.add(ours, theirs));
        add_all(&mut distances.gradient, &grad, &theirs.grad);
        add_all(&mut distances.hessian, &hessian, &theirs.hessian);
    }

    /// Prints the counts; how many calls differ.
    pub fn print(&self) -> u64 {
        let functions = [
            (&self.hinges, "local_deficit_angles"),
            (&self.gradient, "local_lorentzian_regge_action_grad"),
            (&self.hessian, "local_lorentzian_regge_hessian"),
        ];
        let calls: u64 = functions.iter().map(|(both, name)| both.print(name)).sum();
        let Entries { compared, differences } = &self.entries;
        println!("{compared} local gradients compared with a second call's and with our gradient of all edges");
        table::calls("local_lorentzian_regge_action_grad", 0, 0, differences.0);
        calls + differences.0
    }
}

/// A call with one output of so many places, what is due of it, and how many of them are an answer's.
fn one_output(kind: &str, room: usize, (number, due): (u32, Vec<u64>), answers: usize) -> Call<'_> {
    let before = outputs(doubles(room), vec![]);
    Call { kind, about: String::new(), before, due: (number, outputs(due, vec![])), answers }
}
