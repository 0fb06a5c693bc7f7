//! The engine that is linked in: the C exports of the library, by their own declarations, so that
//! every number of an answer is seen.

use crate::Engine;
use oracle::{Answer, Bound, Value, Words, Written};
use std::ptr;
use woodcrock::sys::{self, Lister};

/// The engine that is linked in. It lends an empty part of bytes as NULL.
pub struct Linked;

fn pointer(bytes: &[u8]) -> *const u8 {
    if bytes.is_empty() {
        ptr::null()
    } else {
        bytes.as_ptr()
    }
}

fn list(lister: Lister, query: &[u8], record: &[u8], list: &mut [u32]) -> Answer {
    // SAFETY: pointers and lengths are those of slices that live through the call, the list is lent
    // to it alone, and a length of 0 goes with any pointer.
    let sys::Answer { ground, place, pairs, peak } = unsafe {
        lister(
            pointer(query),
            query.len(),
            pointer(record),
            record.len(),
            list.as_mut_ptr(),
            list.len(),
        )
    };
    Answer { ground, place, pairs, peak }
}

impl Engine for Linked {
    fn list_plain(&self, query: &[u8], record: &[u8], lent: &mut [u32]) -> Answer {
        list(sys::woodcrock_list_plain, query, record, lent)
    }

    fn list_jumping(&self, query: &[u8], record: &[u8], lent: &mut [u32]) -> Answer {
        list(sys::woodcrock_list_jumping, query, record, lent)
    }

    fn find_value(&self, record: &[u8], offset: usize) -> Value {
        // SAFETY: as for the listers.
        let sys::Value { ground, place, end } =
            unsafe { sys::woodcrock_find_value(pointer(record), record.len(), offset) };
        Value { ground, place, end }
    }

    fn write_path(&self, record: &[u8], offset: usize, buffer: &mut [u8]) -> Written {
        // SAFETY: as for the listers; the buffer is lent to the call alone.
        let sys::Written { ground, place, length } = unsafe {
            sys::woodcrock_write_path(
                pointer(record),
                record.len(),
                offset,
                buffer.as_mut_ptr(),
                buffer.len(),
            )
        };
        Written { ground, place, length }
    }

    fn bound_pile(&self, query: &[u8]) -> Bound {
        // SAFETY: as for the listers.
        let sys::Bound { ground, place, bounded, frames } =
            unsafe { sys::woodcrock_bound_pile(pointer(query), query.len()) };
        Bound { ground, place, bounded, frames }
    }

    fn sort_block(&self, rest: &[u8], inside: bool, odd: bool) -> Words {
        // SAFETY: as for the listers.
        let sys::Words { quotes, strings, opening, closing, inside, odd } =
            unsafe { sys::woodcrock_sort_block(pointer(rest), rest.len(), inside, odd) };
        Words { quotes, strings, opening, closing, inside, odd }
    }
}
