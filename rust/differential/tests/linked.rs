//! The calls that are linked in, with a fixed seed and a bounded number of cases.

use differential::{
    blocks, deep, frames, long, piles, random, samples, short, steps, Comparison, Counts, Linked,
    Mismatch, DEEP_CALLS, SMALL_STACK,
};
use oracle::{MAX_FRAMES, MAX_QUERY};
use std::ffi::{c_int, c_long, c_void};
use std::ptr::{null, null_mut, NonNull};
use woodcrock::sys::{
    woodcrock_bound_pile, woodcrock_find_value, woodcrock_list_jumping, woodcrock_list_plain,
    woodcrock_sort_block, woodcrock_write_path, Lister,
};

const SEED: u64 = 1;
const CASES: u64 = 20_000;

/// Runs a comparison of the linked calls and gives back its counts.
fn compared(run: impl Fn(&mut Comparison) -> Result<(), Mismatch>) -> Counts {
    let mut comparison = Comparison::new(&Linked);
    if let Err(mismatch) = run(&mut comparison) {
        panic!("{mismatch}");
    }
    comparison.counts
}

#[test]
fn random_cases() {
    let counts = compared(|comparison| random(comparison, SEED, CASES));
    println!("{counts}");
    assert!([0, 1, 2, 3, 5, 6, 7].iter().all(|&ground: &usize| counts.lists[ground] > 20));
    assert!([0, 5, 6, 8].iter().all(|&ground: &usize| counts.finds[ground] > 20));
    assert!([0, 5, 6, 8, 9, 10].iter().all(|&ground: &usize| counts.paths[ground] > 20));
    assert!(counts.highest_peak > 300 && counts.sorts > 1_000 && counts.queries > 500);
    assert!(counts.bounds.iter().all(|&bounds| bounds > 20));
    assert!(counts.unbounded > 1_000 && counts.reached > 1_000);
}

#[test]
fn sample_rows_and_long_names() {
    let counts = compared(samples);
    assert!([0, 2, 5].iter().all(|&ground: &usize| counts.lists[ground] > 0));
}

#[test]
fn short_inputs() {
    let counts = compared(short);
    assert!(counts.lists[0] > 100 && counts.lists[2] > 1_000 && counts.lists[5] > 1_000);
}

#[test]
fn random_blocks() {
    assert_eq!(compared(|comparison| blocks(comparison, SEED, CASES)).sorts, 4 * CASES);
}

#[test]
fn records_at_the_limit_of_length() {
    let counts = compared(long);
    assert!([0, 2, 4, 5, 6].iter().all(|&ground: &usize| counts.lists[ground] > 0));
    assert!([0, 4, 5, 6, 8].iter().all(|&ground: &usize| counts.finds[ground] > 0));
    assert!([0, 4, 10].iter().all(|&ground: &usize| counts.paths[ground] > 0));
}

#[test]
fn frames_at_every_depth() {
    let counts = compared(frames);
    assert!(counts.lists[0] > 2_000 && counts.highest_peak == 2);
}

#[test]
fn piles_as_large_as_they_get() {
    let counts = compared(piles);
    assert!(counts.bounds[0] > 1_000 && counts.unbounded > 500 && counts.lists[6] > 0);
    assert!(counts.reached > 500 && counts.highest_peak == MAX_FRAMES);
}

#[test]
fn paths_at_every_depth_and_at_the_limits_of_a_query() {
    let counts = compared(steps);
    assert!([0, 1, 3].iter().all(|&ground: &usize| counts.lists[ground] > 0));
    assert!([0, 9, 10].iter().all(|&ground: &usize| counts.paths[ground] > 100));
}

#[test]
fn nesting_at_its_limit_on_a_small_stack() {
    for (_, call) in DEEP_CALLS {
        if let Err(mismatch) = deep(&Linked, call, SMALL_STACK) {
            panic!("{mismatch}");
        }
    }
}

/// An empty part is any pointer with length 0: NULL, and one that points nowhere.
#[test]
fn empty_parts() {
    let (nowhere, nowhere_mut) = (NonNull::<u8>::dangling().as_ptr(), NonNull::<u32>::dangling());
    for buffer in [null_mut(), nowhere] {
        // SAFETY: every length goes with its pointer.
        let no_record = unsafe { woodcrock_write_path(null(), 0, 3, buffer, 0) };
        assert_eq!((no_record.ground, no_record.place, no_record.length), (5, 0, 0));
        let record = b" 7";
        let no_room = unsafe { woodcrock_write_path(record.as_ptr(), 2, 1, buffer, 0) };
        assert_eq!((no_room.ground, no_room.place, no_room.length), (10, 1, 0));
    }
    for bytes in [null(), nowhere.cast_const()] {
        for list in [null_mut(), nowhere_mut.as_ptr()] {
            for lister in [woodcrock_list_plain as Lister, woodcrock_list_jumping] {
                // SAFETY: every length goes with its pointer.
                let none = unsafe { lister(bytes, 0, bytes, 0, list, 0) };
                assert_eq!((none.ground, none.place, none.pairs, none.peak), (2, 0, 0, 0));
                let query = b"$";
                let no_record = unsafe { lister(query.as_ptr(), 1, bytes, 0, list, 0) };
                assert_eq!((no_record.ground, no_record.place), (5, 0));
                let record = b" 7";
                let no_list = unsafe { lister(query.as_ptr(), 1, record.as_ptr(), 2, list, 0) };
                assert_eq!((no_list.ground, no_list.place, no_list.pairs), (7, 1, 0));
            }
        }
        // SAFETY: as above.
        let bound = unsafe { woodcrock_bound_pile(bytes, 0) };
        assert_eq!((bound.ground, bound.place, bound.bounded, bound.frames), (2, 0, false, 0));
        let value = unsafe { woodcrock_find_value(bytes, 0, 3) };
        assert_eq!((value.ground, value.place, value.end), (5, 0, 0));
        let words = unsafe { woodcrock_sort_block(bytes, 0, true, true) };
        assert_eq!((words.quotes, words.strings, words.opening, words.closing), (0, 0, 0, 0));
        assert!(words.inside && words.odd);
    }
}

/// Two pages of memory, of which the second can be neither read nor written (`mmap` and `mprotect` of
/// the C library, with the numbers of Linux on x86-64), and where the second begins.
fn before_a_closed_page() -> *mut u8 {
    extern "C" {
        fn mmap(
            address: *mut c_void,
            length: usize,
            protection: c_int,
            flags: c_int,
            file: c_int,
            offset: c_long,
        ) -> *mut c_void;
        fn mprotect(address: *mut c_void, length: usize, protection: c_int) -> c_int;
    }
    const PAGE: usize = 4_096;
    let (closed, open, private_and_anonymous) = (0, 3, 0x22);
    // SAFETY: the pages are new ones, of which nothing else knows.
    unsafe {
        let pages = mmap(null_mut(), 2 * PAGE, open, private_and_anonymous, -1, 0);
        assert_ne!(pages as isize, -1);
        let second = pages.cast::<u8>().add(PAGE);
        assert_eq!(mprotect(second.cast(), PAGE, closed), 0);
        second
    }
}

/// Of a query that is too long the first 1,024 bytes are read, and no other: those behind them stand in
/// a page that cannot be read.
#[test]
fn the_first_1024_bytes_of_a_query_that_is_too_long() {
    let name = "a".repeat(MAX_QUERY - 2);
    let (whole, cut) = (format!("$.{name}"), format!("$[{name}").replacen("[a", "['", 1));
    let steps = format!("${}.{}", ".*".repeat(16), "a".repeat(MAX_QUERY - 34));
    let broken = format!("{}!", &whole[..MAX_QUERY - 1]);
    let early = format!("$!{name}");
    let behind = before_a_closed_page();
    for (first, ground, place) in
        [(whole, 1, 1_024), (cut, 1, 1_024), (steps, 1, 1_024), (broken, 2, 1_023), (early, 2, 1)]
    {
        assert_eq!(first.len(), MAX_QUERY);
        // SAFETY: the bytes that are written stand before the closed page. Those behind them are no bytes
        // that a caller may lend; no call must look at them.
        let query = unsafe {
            let query = behind.sub(MAX_QUERY);
            query.copy_from_nonoverlapping(first.as_ptr(), MAX_QUERY);
            query
        };
        for lister in [woodcrock_list_plain as Lister, woodcrock_list_jumping] {
            // SAFETY: as above.
            let answer = unsafe { lister(query, MAX_QUERY + 1, b"7".as_ptr(), 1, null_mut(), 0) };
            assert_eq!((answer.ground, answer.place), (ground, place), "{first}");
        }
        // SAFETY: as above.
        let bound = unsafe { woodcrock_bound_pile(query, MAX_QUERY + 1) };
        assert_eq!((bound.ground, bound.place), (ground, place as usize), "{first}");
    }
}
