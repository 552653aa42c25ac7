//! Lorentzian Regge calculus, 4D simplicial gravity on signed squared lengths, by a library whose every function is proved to meet its
//! contract.
//!
//! Modules, functions, arguments and fields have the names of the crate phyz-regge, so that a program moves by changing its imports.
//! What differs:
//!
//! - A call into the library that breaks a condition is refused with a [`Refusal`] where phyz-regge panics or answers in silence: a
//!   list of lengths of the wrong count, an edge number that is too large, a free edge given twice. A refused call changes nothing.
//!   Every other call answers, NaN and infinite lengths included. What is only looked up, in a complex, a lattice or a matrix, panics
//!   out of range where it does there.
//! - Sizes have limits: 4,096 vertices, 8,192 pentachorons, lattices of at most 341 cells.
//! - An answer has the same bits each time: nothing is summed in hash order, and a free edge's local gradient is its entry of the
//!   global one.
//! - The fields of a [`Complex`], whose other name is [`SimplicialComplex`], and of a lattice can be read, not changed.
//! - [`retouch`](retouch::retouch) brings a table of hinges up to date after one length has changed.
//!
//! ```
//! use cjapthumi::foliation::{flat_minkowski_sq_lengths, foliated_hypercubic};
//! use cjapthumi::lorentzian_regge::{lorentzian_regge_action_grad, local_lorentzian_regge_action_grad};
//!
//! # fn main() -> Result<(), cjapthumi::Refusal> {
//! let lattice = foliated_hypercubic(3, 2)?;
//! let mut lengths = flat_minkowski_sq_lengths(&lattice, 1.0, 0.5);
//! lengths[7] += 0.01;
//! let grad = lorentzian_regge_action_grad(&lattice.complex, &lengths)?;
//! let local = local_lorentzian_regge_action_grad(&lattice.complex, &lengths, &[7, 3])?;
//! assert_eq!(local, [grad[7], grad[3]]);
//! # Ok(())
//! # }
//! ```
//!
//! A complex is built by the library's builder and checked once; the calls over it do not check it again. All types can be sent to
//! threads and shared between them. The default stack of a thread, 2 MiB, suffices: building takes 1.69 MiB of it, the other calls at
//! most 1.06.

#[cfg(not(all(target_arch = "x86_64", target_os = "linux")))]
compile_error!("the libraries that cjapthumi links are for x86-64 Linux");

pub mod complex;
pub mod fdlibm;
mod ffi;
pub mod foliation;
pub mod geometry;
pub mod hinge_table;
pub mod incidence;
pub mod length_signs;
pub mod lorentzian;
pub mod lorentzian_regge;
pub mod matrix;
pub mod refusal;
pub mod retouch;

pub use complex::{Complex, SimplicialComplex};
pub use refusal::Refusal;
