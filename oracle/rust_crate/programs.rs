//! A group's program over the Rust and over our crate, which must tell the same.
use crate::report::{Report, all_bits};
use cjapthumi::Complex;
use phyz_regge::complex::SimplicialComplex;

/// How many steps the program's descent has.
const STEPS: usize = 2;

/// The program over the Rust: the hinges of the altered copy, builder and lattices as they are.
pub mod rust {
    mod regge {
        pub use altered::{geometry, lorentzian, lorentzian_regge};
        pub use phyz_regge::{complex, foliation};
    }

    /// The answer of a call, which is never refused.
    fn given<T>(answer: T) -> T {
        answer
    }

    include!("moved.rs");
}

/// The program over our crate.
pub mod ours {
    use cjapthumi as regge;

    /// The answer of a call that is not to be refused.
    fn given<T>(answer: Result<T, regge::Refusal>) -> T {
        answer.unwrap()
    }

    include!("moved.rs");
}

/// Compares what the programs tell of a complex with lengths, and of lawful free edges with a step.
pub fn compare(
    report: &mut Report,
    (complex, rust): (&Complex, &SimplicialComplex),
    lengths: &[f64],
    free: &[usize],
    fd_eps: f64,
) {
    let (n_vertices, pents) = (rust.n_vertices, &rust.pents);
    let about = || format!("{n_vertices} vertices, {pents:?}");
    report.plain("program_complex", about, ours::built(n_vertices, pents), rust::built(n_vertices, pents));
    let about = || format!("lengths {lengths:?}, free {free:?}, step {fd_eps:?}");
    let [found, due] = [ours::geometry(complex, lengths), rust::geometry(rust, lengths)];
    report.plain("program_geometry", about, all_bits(&found), all_bits(&due));
    let found = ours::descent(complex, lengths.to_vec(), free, STEPS);
    let due = rust::descent(rust, lengths.to_vec(), free, STEPS);
    report.plain("program_descent", about, all_bits(&found), all_bits(&due));
    let [found, due] = [ours::newton(complex, lengths, free, fd_eps), rust::newton(rust, lengths, free, fd_eps)];
    report.plain("program_newton", about, all_bits(&found), all_bits(&due));
}
