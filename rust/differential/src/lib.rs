//! Differential tests: every number that a call answers, and every number of the list and every byte of
//! the buffer afterwards, is compared with the independent implementation of document 01, on inputs made
//! from a seed.

mod compare;
mod exports;
mod program;
mod runs;

pub use compare::{Comparison, Counts, Mismatch};
pub use exports::Linked;
pub use program::{picklist, Inputs};
pub use runs::{
    blocks, deep, frames, long, piles, random, samples, short, steps, DeepCall, DEEP_CALLS,
    SMALL_STACK,
};

use oracle::{Answer, Bound, Value, Words, Written};

/// The calls under test.
pub trait Engine: Sync {
    fn list_plain(&self, query: &[u8], record: &[u8], list: &mut [u32]) -> Answer;
    fn list_jumping(&self, query: &[u8], record: &[u8], list: &mut [u32]) -> Answer;
    fn find_value(&self, record: &[u8], offset: usize) -> Value;
    fn write_path(&self, record: &[u8], offset: usize, buffer: &mut [u8]) -> Written;
    fn bound_pile(&self, query: &[u8]) -> Bound;
    fn sort_block(&self, rest: &[u8], inside: bool, odd: bool) -> Words;
}

/// The independent implementation: what the calls under test are compared with.
pub struct Independent;

impl Engine for Independent {
    fn list_plain(&self, query: &[u8], record: &[u8], list: &mut [u32]) -> Answer {
        oracle::list(query, record, list)
    }

    fn list_jumping(&self, query: &[u8], record: &[u8], list: &mut [u32]) -> Answer {
        oracle::list(query, record, list)
    }

    fn find_value(&self, record: &[u8], offset: usize) -> Value {
        oracle::find_value(record, offset)
    }

    fn write_path(&self, record: &[u8], offset: usize, buffer: &mut [u8]) -> Written {
        oracle::write_path(record, offset, buffer)
    }

    fn bound_pile(&self, query: &[u8]) -> Bound {
        oracle::bound_pile(query)
    }

    fn sort_block(&self, rest: &[u8], inside: bool, odd: bool) -> Words {
        oracle::sort_block(rest, inside, odd)
    }
}
