//! One call made several times, for a profiler that counts instructions.
use crate::builder::Builder;
use crate::check::Checked;
use crate::hinges::Hinges;
use crate::inputs::{Input, SIZE};
use crate::local::{Local, some_edges};
use crate::retouch::Retouch;
use crate::tables::answered;

/// How often the call is made: bench/profile divides by it.
const TIMES: usize = 5;

/// How many free edges the local calls have.
const FREE: [usize; 2] = [100, 1];

/// The calls of ours alone, under a name that the profiler is told.
#[unsafe(no_mangle)]
#[inline(never)]
pub fn profiled_calls(call: &mut dyn FnMut() -> u32) {
    for _ in 0..TIMES {
        answered(&mut *call);
    }
}

/// Makes a call several times on the largest lattice.
pub fn run(call: &str) {
    let input = Input::lattice(SIZE);
    let mut builder = Builder::new(input.given.clone());
    let (mut checked, mut hinges) = (Checked::new(&input.complex), Hinges::new(&input));
    let [mut many, mut one] = FREE.map(|free| Local::new(&input, &some_edges(&input.complex, free)));
    let mut retouch = Retouch::new(&input);
    profiled_calls(&mut || match call {
        "builder" => builder.make(),
        "check" => checked.make(),
        "deficits" => hinges.deficits_core(),
        "gradient" => hinges.gradient_core(),
        "local-hessian" => many.hessian_core(),
        "local-deficits" => one.deficits_core(),
        "local-gradient" => one.gradient_core(),
        "retouch" => retouch.make_core(),
        _ => panic!("no such call: {call}"),
    });
}
