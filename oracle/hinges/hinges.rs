//! The calls over hinges that are compared and frozen: their lengths, what they must answer, and what must occur among them.
pub mod expected;
pub mod facts;
pub mod free_edges;
pub mod lengths;
pub mod local;
pub mod local_facts;
#[path = "../regge/simplexes.rs"]
pub mod simplexes;
#[path = "../foliation/sizes.rs"]
pub mod sizes;

pub use calls::distance;
use calls::random;
