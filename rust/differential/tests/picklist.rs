//! The comparison of programs, on the program of the independent implementation and on wrong ones.

use differential::picklist;
use std::path::Path;

const CASES: u64 = 300;

#[test]
fn the_program_of_the_independent_implementation() {
    let inputs = picklist(Path::new(env!("CARGO_BIN_EXE_picklist")), 1, CASES)
        .unwrap_or_else(|mismatch| panic!("{mismatch}"));
    assert!([0, 1, 2, 3, 5, 6, 7].iter().all(|&ground: &usize| inputs.by_ground[ground] > 0));
    assert!(inputs.too_long > 0);
    assert_eq!((inputs.by_ground[4], inputs.by_ground[8]), (0, 0));
}

#[test]
fn programs_that_are_something_else() {
    assert!(picklist(Path::new("cat"), 1, CASES).is_err());
    assert!(picklist(Path::new("a program that does not exist"), 1, CASES).is_err());
}
