//! Blocks of the output of `picklist_cases`, written by hand from document 01.

use samples::picklist::{output, CASES};

/// The name of a case, and what the program prints for its input.
const BLOCKS: &[(&str, &str)] = &[
    ("the example of document 01", "matches 2\n1 12 13\n2 21 24\n"),
    ("a grower with two lots in one blend", "matches 3\n1 36 42\n2 49 55\n3 75 80\n"),
    ("the third lot of the second table", "matches 1\n1 22 27\n"),
    ("a name that is written as escapes", "matches 1\n1 19 20\n"),
    ("no node", "matches 0\n"),
    ("no input", "refused 2 0\n"),
    ("a line feed alone", "refused 2 0\n"),
    ("no line feed", "refused 5 0\n"),
    ("no query", "refused 2 0\n"),
    ("no record", "refused 5 0\n"),
    ("line feeds in the record", "matches 2\n1 22 23\n2 38 49\n"),
    ("a line feed before the record", "matches 1\n1 1 2\n"),
    ("a carriage return behind the query", "refused 2 2\n"),
    ("a zero before a position", "refused 2 3\n"),
    ("half of a surrogate pair", "refused 2 9\n"),
    ("a query and a record that are both refused", "refused 2 3\n"),
    ("a comma before a closing bracket", "refused 5 3\n"),
    ("a torn record", "refused 5 23\n"),
    ("a byte order mark", "refused 5 0\n"),
    ("a query of 1024 bytes", "matches 1\n1 5 6\n"),
    ("a query of 1025 bytes", "refused 1 1024\n"),
    ("a query of 1025 bytes, a fault at 1023", "refused 2 1023\n"),
    ("a query of 1025 bytes, a fault at 1024", "refused 1 1024\n"),
    ("16 steps", "matches 1\n1 16 17\n"),
    ("17 steps", "refused 3 33\n"),
    ("512 levels", "matches 1\n1 516 517\n"),
    ("513 levels", "refused 6 512\n"),
    ("257 nodes", "refused 7 513\n"),
    ("65536 bytes, a node at the end", "matches 1\n1 65530 65531\n"),
    ("65537 bytes, a node at the end", "too long\n"),
    ("65536 bytes, blanks at the end", "matches 1\n1 0 1\n"),
    ("65537 bytes, blanks at the end", "too long\n"),
    ("65536 bytes, no line feed", "refused 1 1024\n"),
    ("65536 bytes, no line feed, a fault", "refused 2 1\n"),
    ("65537 bytes, no line feed", "too long\n"),
];

/// The text for 256 elements of one byte, of which the first begins here.
fn full(first: usize) -> String {
    let line = |node: usize| {
        let begins = first + 2 * node;
        format!("{} {begins} {}\n", node + 1, begins + 1)
    };
    format!("matches 256\n{}", (0..256).map(line).collect::<String>())
}

/// Asserts that the output has the case of a name, once, with this text below its input.
fn has(name: &str, text: &str) {
    let output = output(CASES).unwrap();
    let [_, case] = output.split(&format!("\n# {name}\ninput")).collect::<Vec<_>>()[..] else {
        panic!("{name}");
    };
    let (_, below) = case.split_once('\n').unwrap();
    let block = format!("{text}({} bytes, 0 changed beyond)\n", text.len());
    assert!(below.starts_with(&block), "{name}: {block}");
}

#[test]
fn the_output_has_the_blocks() {
    BLOCKS.iter().for_each(|(name, text)| has(name, text));
}

#[test]
fn a_list_that_is_full() {
    has("256 nodes", &full(1));
    assert_eq!(full(65_020).len(), 4_000);
    has("256 nodes at the end of 65536 bytes", &full(65_020));
}

#[test]
fn every_case_has_a_block_here() {
    let cases = BLOCKS.len() + 2;
    assert!(output(CASES).unwrap().ends_with(&format!("\n{cases} cases\n")));
}
