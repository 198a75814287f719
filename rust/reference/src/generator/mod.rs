//! Random plans, logs and whole cases from a seed. The same seed gives the
//! same cases on every machine.

pub mod case;
pub mod damage;
pub mod edges;
pub mod graph;
pub mod logs;
pub mod offers;
pub mod plans;
pub mod random;
pub mod seeds;
pub mod trees;

pub use case::{cases, gentle_cases, older_cases, Case};
pub use random::Random;
