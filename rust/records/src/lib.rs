//! Records, queries, lists and buffers made from a seed: the same seed gives the same bytes everywhere.

pub mod cases;
pub mod large;
mod random;

pub use random::Random;
