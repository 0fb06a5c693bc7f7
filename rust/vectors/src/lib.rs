//! Test vectors of this grammar, made from the published JSONPath Compliance Test Suite.

mod case;
mod output;
mod suite;
mod value;

pub use output::{files, File};

/// Where the suite stands in the repository.
pub const SUITE: &str = "rust/vectors/cts.json";
