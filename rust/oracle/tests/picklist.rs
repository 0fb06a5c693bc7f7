//! The program `picklist`, byte for byte.

use oracle::{picklist, MAX_INPUT, PICKLIST_PAIRS};

/// Asserts what the program prints for an input.
fn prints(input: &[u8], output: &str) {
    assert_eq!(String::from_utf8(picklist(input)).unwrap(), output);
}

#[test]
fn the_example_of_document_01() {
    prints(b"$..lot\n{\"a\":{\"lot\":1},\"lot\":[2]}", "matches 2\n1 12 13\n2 21 24\n");
}

#[test]
fn the_query_ends_at_the_first_line_feed() {
    prints(b"$\n7\n", "matches 1\n1 0 1\n");
    prints(b"$\n\n7", "matches 1\n1 1 2\n");
    prints(b"$.a\n{}", "matches 0\n");
    // A carriage return is a blank after the last step.
    prints(b"$\r\n7", "refused 2 2\n");
    // Without a line feed the record is empty.
    prints(b"$", "refused 5 0\n");
    prints(b"$\n", "refused 5 0\n");
    prints(b"", "refused 2 0\n");
    prints(b"\n7", "refused 2 0\n");
}

#[test]
fn each_ground_that_can_reach_it() {
    prints(format!("$.{}\n7", "a".repeat(1_023)).as_bytes(), "refused 1 1024\n");
    prints(format!("$$.{}\n7", "a".repeat(1_023)).as_bytes(), "refused 2 1\n");
    prints(b"$[00]\n7", "refused 2 3\n");
    prints(format!("${}\n7", ".a".repeat(17)).as_bytes(), "refused 3 33\n");
    prints(b"$\n[1,]", "refused 5 3\n");
    prints(&[b"$\n".to_vec(), b"[".repeat(513)].concat(), "refused 6 512\n");
}

#[test]
fn a_list_of_256_pairs() {
    let elements = |count: usize| format!("$.*\n[{}0]", "0,".repeat(count - 1));
    let mut full = String::from("matches 256\n");
    for index in 0..PICKLIST_PAIRS {
        full += &format!("{} {} {}\n", index + 1, 2 * index + 1, 2 * index + 2);
    }
    prints(elements(256).as_bytes(), &full);
    prints(elements(257).as_bytes(), "refused 7 513\n");
}

#[test]
fn input_of_65536_bytes_and_of_65537() {
    let padded = |length: usize| [b"$\n7", vec![b' '; length - 3].as_slice()].concat();
    assert_eq!(MAX_INPUT, 65_536);
    prints(&padded(65_536), "matches 1\n1 0 1\n");
    prints(&padded(65_537), "too long\n");
    prints(&vec![b'x'; 65_536], "refused 2 0\n");
    prints(&vec![b'x'; 65_537], "too long\n");
}
