//! The root of each copy of the Rust.
pub mod complex;
#[cfg(altered)]
mod fdlibm;
pub mod geometry;
pub mod lorentzian;
pub mod lorentzian_regge;
