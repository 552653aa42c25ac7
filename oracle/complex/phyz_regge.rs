//! The root of the copy of the Rust.
pub mod complex;
pub mod foliation;
pub mod geometry;
pub mod lorentzian;
pub mod lorentzian_regge;
