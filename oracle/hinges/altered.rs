//! The root of the altered copy: the Rust's hinges with fdlibm's C, over the unaltered builder.
mod fdlibm;
pub mod geometry;
pub mod lorentzian;
pub mod lorentzian_regge;

pub use phyz_regge::complex;
