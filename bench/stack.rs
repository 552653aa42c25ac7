//! How deep the stack of our calls is: the stack below a call is painted, and the paint that is gone afterwards is measured. For x86-64.
use crate::builder::Builder;
use crate::check::Checked;
use crate::hinges::Hinges;
use crate::inputs::{self, Input, SIZE};
use crate::lattices::{Edges, Listing};
use crate::local::{Local, some_edges};
use crate::retouch::Retouch;
use crate::small;
use crate::tables::{grouped, print_table};
use calls::Complex;
use calls::complexes::MOST_PENTS;
use calls::lattice::lattice;
use std::arch::asm;
use std::hint::black_box;
use std::ptr::{with_exposed_provenance, with_exposed_provenance_mut};
use std::thread::Builder as Thread;

/// The size of the thread's stack, and how much of it is painted, in bytes.
const STACK: usize = 64 << 20;
const PAINTED: usize = 56 << 20;

const PAINT: u64 = 0x5a17_c0de_5a17_c0de;

/// How many free edges a call over many has.
const FREE: usize = 100;

/// The bytes of stack that a function uses below this frame. Nothing may be called while paint is put on or looked for: this is for -O.
#[inline(never)]
fn depth(function: &mut dyn FnMut()) -> usize {
    let top: usize;
    unsafe { asm!("mov {}, rsp", out(reg) top, options(nomem, nostack, preserves_flags)) };
    let mut word = top - PAINTED;
    while word < top {
        unsafe { with_exposed_provenance_mut::<u64>(word).write_volatile(PAINT) };
        word += 8;
    }
    function();
    word = top - PAINTED;
    while word < top && unsafe { with_exposed_provenance::<u64>(word).read_volatile() } == PAINT {
        word += 8;
    }
    top - word
}

/// A call that was measured: its name, on what it was made, its refusal's number or 0, and its bytes of stack.
struct Measured {
    call: String,
    input: String,
    number: u32,
    bytes: usize,
}

/// All calls that were measured.
#[derive(Default)]
pub struct Stack(Vec<Measured>);

impl Stack {
    /// Measures one call in a thread of its own.
    fn measure(&mut self, call: &str, input: &str, mut function: impl FnMut() -> u32 + Send + 'static) {
        let measured = move || {
            let mut number = 0;
            (depth(&mut || number = function()), number)
        };
        let thread = Thread::new().stack_size(STACK).spawn(measured).unwrap();
        let (bytes, number) = thread.join().unwrap();
        self.0.push(Measured { call: call.into(), input: input.into(), number, bytes });
    }

    /// Measures the calls on floats and on one pentachoron, answered ones and refused ones.
    fn small(&mut self) {
        for (call, function, numbers) in small::OF_ONE {
            for &x in numbers {
                self.measure(call, &format!("{x:?}"), move || function(black_box(x)));
            }
        }
        for (call, function, inputs) in small::OF_THREE {
            for &(input, numbers) in inputs {
                self.measure(call, input, move || function(black_box(numbers)));
            }
        }
        for (call, function) in small::ANSWERED {
            for (input, lengths) in &small::PENTACHORONS {
                self.measure(call, input, move || function(black_box(lengths)));
            }
        }
        for (call, input, function) in small::REFUSED {
            self.measure(call, input, move || function(black_box(&small::PENTACHORONS[0].1)));
        }
    }

    /// Measures builders, answered ones and refused ones.
    fn builders(&mut self) {
        let (n_vertices, mut outside) = inputs::random(4_096, MOST_PENTS);
        outside.last_mut().unwrap()[4] = 4_096;
        let mut measure = |input: &str, complex: Complex| {
            let mut builder = Builder::new(complex);
            self.measure("from_pentachorons", input, move || builder.make());
        };
        measure("8,192 pentachorons, 4,096 vertices", inputs::random(4_096, MOST_PENTS));
        measure("8,192 pentachorons, 12 vertices", inputs::random(12, MOST_PENTS));
        measure("8,192 pentachorons, the last with a vertex outside", (n_vertices, outside));
        measure("no vertices", (0, vec![]));
        measure("no pentachorons", (4_096, vec![]));
    }

    /// Measures checks, answered ones and refused ones.
    fn checks(&mut self) {
        let mut measure = |input: &str, complex: &Complex, damage: fn(&mut Checked)| {
            let mut checked = Checked::new(&inputs::built(complex));
            damage(&mut checked);
            self.measure("check_built", input, move || checked.make());
        };
        let complex = inputs::random(4_096, MOST_PENTS);
        measure("8,192 pentachorons, 4,096 vertices", &complex, |_| ());
        measure("8,192 pentachorons, 12 vertices", &inputs::random(12, MOST_PENTS), |_| ());
        measure("8,192 pentachorons, the last start wrong", &complex, damage);
        measure("8,192 pentachorons, an output short", &complex, |call| call.outputs[1].truncate(1));
        measure("8,192 pentachorons, no vertices", &complex, |call| call.check.counts[0] = 0);
        measure("no pentachorons", &(4_096, vec![]), |_| ());
    }

    /// Measures a call of foliated_hypercubic, changed by a function.
    fn listing(&mut self, input: &str, change: fn(&mut Listing)) {
        let mut listing = Listing::new();
        change(&mut listing);
        self.measure("foliated_hypercubic", input, move || listing.make());
    }

    /// Measures a call of edge_types and one of flat_minkowski_sq_lengths, their lists changed by a function.
    fn edges(&mut self, input: &str, change: fn(&mut Edges)) {
        let complex = inputs::built(&lattice(SIZE.0, SIZE.1));
        let calls: [(&str, fn(&mut Edges) -> u32); 2] =
            [("edge_types", Edges::types), ("flat_minkowski_sq_lengths", Edges::lengths)];
        for (name, call) in calls {
            let mut edges = Edges::new(&complex);
            change(&mut edges);
            self.measure(name, input, move || call(&mut edges));
        }
    }

    /// Measures the calls on a lattice, answered ones and refused ones.
    fn lattices(&mut self) {
        self.listing("lattice (5, 4)", |_| ());
        self.listing("lattice (6, 4)", |listing| listing.size = (6, 4));
        self.listing("lattice (5, 4), the list short", |listing| listing.pents.truncate(5));
        self.edges("lattice (5, 4)", |_| ());
        self.edges("lattice (6, 4)", |edges| edges.size = (6, 4));
        self.edges("lattice (5, 4), another's size", |edges| edges.size = (4, 4));
        self.edges("lattice (5, 4), the last start wrong", |edges| damage(&mut edges.complex));
    }

    /// Measures calls on what is made of an input and changed by a function.
    fn calls<T: Send + 'static>(
        &mut self,
        calls: &[(&str, fn(&mut T) -> u32)],
        name: &str,
        make: impl Fn() -> T,
        change: fn(&mut T),
    ) {
        for &(call, function) in calls {
            let mut made = make();
            change(&mut made);
            self.measure(call, name, move || function(&mut made));
        }
    }

    /// Measures the calls on hinges, answered ones and refused ones; a damaged complex is for checked calls alone.
    fn hinges(&mut self, complexes: &Complexes) {
        let checked: [(&str, fn(&mut Hinges) -> u32); 5] = [
            ("lorentzian_deficit_angles", Hinges::deficits),
            ("lorentzian_deficit_angle", Hinges::hinge),
            ("lorentzian_regge_action", Hinges::action),
            ("lorentzian_regge_action_grad", Hinges::gradient),
            ("length_signs", Hinges::signs),
        ];
        let cores: [(&str, fn(&mut Hinges) -> u32); 4] = [
            ("lorentzian_deficit_angles_built", Hinges::deficits_core),
            ("lorentzian_deficit_angle_built", Hinges::hinge_core),
            ("lorentzian_regge_action_built", Hinges::action_core),
            ("lorentzian_regge_action_grad_built", Hinges::gradient_core),
        ];
        for calls in [&checked[..], &cores] {
            for (name, input) in complexes.all() {
                self.calls(calls, name, || Hinges::new(input), |_| ());
            }
            self.calls(calls, "too few lengths", || Hinges::new(&complexes.lattice), |call| call.lengths.truncate(1));
            self.calls(
                calls,
                "outputs short, the triangle outside",
                || Hinges::new(&complexes.lattice),
                |call| {
                    call.deficits.pop();
                    call.grad.pop();
                    call.tri = u32::MAX;
                },
            );
        }
        self.calls(
            &checked,
            "the last start wrong",
            || Hinges::new(&complexes.lattice),
            |call| {
                damage(&mut call.complex);
            },
        );
    }

    /// Measures the calls over free edges, answered ones and refused ones.
    fn local(&mut self, complexes: &Complexes) {
        let checked: [(&str, fn(&mut Local) -> u32); 3] = [
            ("local_deficit_angles", Local::deficits),
            ("local_lorentzian_regge_action_grad", Local::gradient),
            ("local_lorentzian_regge_hessian", Local::hessian),
        ];
        let cores: [(&str, fn(&mut Local) -> u32); 3] = [
            ("local_deficit_angles_built", Local::deficits_core),
            ("local_lorentzian_regge_action_grad_built", Local::gradient_core),
            ("local_lorentzian_regge_hessian_built", Local::hessian_core),
        ];
        let over = |input: &Input, free| Local::new(input, &some_edges(&input.complex, free));
        for calls in [&checked[..], &cores] {
            for (name, input) in complexes.all() {
                self.calls(calls, name, || over(input, FREE), |_| ());
            }
            self.calls(calls, "lattice (5, 4), no free edges", || over(&complexes.lattice, 0), |_| ());
            let refused: [(&str, fn(&mut Local)); 4] = [
                ("too few lengths", |call| call.lengths.truncate(1)),
                ("the last edge outside", |call| *call.free.last_mut().unwrap() = u32::MAX),
                ("the last edge twice", |call| *call.free.last_mut().unwrap() = call.free[0]),
                ("outputs short", Local::shorten),
            ];
            for (name, change) in refused {
                self.calls(calls, name, || over(&complexes.lattice, FREE), change);
            }
        }
        self.calls(
            &checked,
            "the last start wrong",
            || over(&complexes.lattice, FREE),
            |call| {
                damage(&mut call.complex);
            },
        );
    }

    /// Measures retouches, answered ones and refused ones.
    fn retouches(&mut self, complexes: &Complexes) {
        let checked: [(&str, fn(&mut Retouch) -> u32); 1] = [("retouch", Retouch::make)];
        let cores: [(&str, fn(&mut Retouch) -> u32); 1] = [("retouch_built", Retouch::make_core)];
        for calls in [&checked, &cores] {
            for (name, input) in complexes.some() {
                self.calls(calls, name, || Retouch::new(input), |_| ());
            }
            let refused: [(&str, fn(&mut Retouch)); 3] = [
                ("too few lengths", |call| call.lengths.truncate(1)),
                ("the edge outside", |call| call.edge = u32::MAX),
                ("the table short", |call| call.kinds.truncate(1)),
            ];
            for (name, change) in refused {
                self.calls(calls, name, || Retouch::new(&complexes.lattice), change);
            }
        }
        self.calls(
            &checked,
            "the last start wrong",
            || Retouch::new(&complexes.lattice),
            |call| {
                damage(&mut call.complex);
            },
        );
    }

    /// Measures all calls: of each function answered ones and, where it refuses, refused ones.
    pub fn of_all_calls() -> Stack {
        let (mut stack, complexes) = (Stack::default(), Complexes::new());
        stack.small();
        stack.builders();
        stack.checks();
        stack.lattices();
        stack.hinges(&complexes);
        stack.local(&complexes);
        stack.retouches(&complexes);
        stack
    }

    /// The names of the functions, in the order in which they were measured.
    fn functions(&self) -> Vec<&str> {
        let mut functions: Vec<&str> = Vec::new();
        for measured in &self.0 {
            if !functions.contains(&&*measured.call) {
                functions.push(&measured.call);
            }
        }
        functions
    }

    /// The most bytes of any call.
    pub fn most(&self) -> usize {
        self.0.iter().map(|measured| measured.bytes).max().unwrap()
    }

    /// Prints the most bytes of each function, answered and refused.
    pub fn print(&self) {
        let most = |call: &str, refused: bool| {
            let calls = self.0.iter().filter(|measured| measured.call == call && (measured.number > 0) == refused);
            calls.map(|measured| measured.bytes).max()
        };
        let mut rows = Vec::new();
        for call in self.functions() {
            let [answered, refused] = [false, true].map(|refused| most(call, refused));
            let mib = answered.max(refused).unwrap() as f64 / (1 << 20) as f64;
            let bytes = [answered, refused].map(|bytes| bytes.map_or("".into(), grouped));
            rows.push([call.into()].into_iter().chain(bytes).chain([format!("{mib:.2}")]).collect());
        }
        print_table("Peak stack", &["function", "answered, bytes", "refused, bytes", "most, MiB"], &rows);
    }

    /// Prints every call that was measured.
    pub fn print_all(&self) {
        let cells = |measured: &Measured| {
            let Measured { call, input, number, bytes } = measured;
            vec![call.clone(), input.clone(), number.to_string(), grouped(*bytes)]
        };
        let rows: Vec<_> = self.0.iter().map(cells).collect();
        print_table("Stack of calls", &["function", "input", "number", "bytes"], &rows);
    }
}

/// Makes the last start of a complex wrong, so that it isn't built.
fn damage(complex: &mut Checked) {
    *complex.check.lists[9].last_mut().unwrap() += 1;
}

/// The complexes on which calls are measured.
struct Complexes {
    lattice: Input,
    wide: Input,
    narrow: Input,
    empty: Input,
}

impl Complexes {
    /// A lattice, pentachorons over many vertices and over few, and none.
    fn new() -> Complexes {
        let (lattice, empty) = (Input::lattice(SIZE), Input::random(4_096, 0));
        let (wide, narrow) = (Input::random(4_096, MOST_PENTS), Input::random(12, MOST_PENTS));
        Complexes { lattice, wide, narrow, empty }
    }

    /// Those with edges.
    fn some(&self) -> [(&str, &Input); 3] {
        let (wide, narrow) = ("8,192 pentachorons, 4,096 vertices", "8,192 pentachorons, 12 vertices");
        [("lattice (5, 4)", &self.lattice), (wide, &self.wide), (narrow, &self.narrow)]
    }

    /// All of them.
    fn all(&self) -> impl Iterator<Item = (&str, &Input)> {
        self.some().into_iter().chain([("no pentachorons", &self.empty)])
    }
}
