//! The sample rows of document 01 and its limits, both sides.

mod common;

use common::{listed, picks_out, refused, OLD};
use oracle::{find_value, sort_block, Answer, Value, MAX_RECORD};

const ANY: [&[u8]; 4] = [b"", b"7", b"[1,]", b"{\"a\":[]}"];

#[test]
fn rows_that_pick_out() {
    picks_out("$", "7", &[(0, 1)], 0);
    picks_out("$.M", r#"{"M":1,"M":2}"#, &[(5, 6), (11, 12)], 0);
    picks_out("$..a..b", r#"{"a":{"a":{"b":1}}}"#, &[(15, 16)], 1);
    picks_out("$..*", "[3,[4]]", &[(1, 2), (3, 6), (4, 5)], 0);
    picks_out("$ ['a' ]", r#"{"a":[]}"#, &[(5, 7)], 1);
    picks_out("$.lot", r#"{"x":"lot\":9}"}"#, &[], 0);
    picks_out("$[2]", "[1,[2,3],4]", &[(9, 10)], 1);
    picks_out("$..[0]", "[[7]]", &[(1, 4), (2, 3)], 0);
    picks_out("$[0]", r#"{"0":1}"#, &[], 0);
    picks_out("$.lot", r#"{"l\u006ft":1}"#, &[(12, 13)], 0);
}

#[test]
fn row_with_a_list_of_three_numbers() {
    let (answer, lent) = listed(b"$.*", b"[3,[4]]", 3);
    assert_eq!(answer, Answer { ground: 7, place: 3, pairs: 1, peak: 0 });
    assert_eq!(lent, [1, 2, OLD]);
}

#[test]
fn rows_that_are_refused() {
    for any in ANY {
        refused(b"", any, 2, 0);
        refused(b"$.a ", any, 2, 4);
        refused(b"$[00]", any, 2, 3);
        refused(br"$['\uD800']", any, 2, 9);
    }
    refused(b"$", b"[1,]", 5, 3);
    refused(b"$", b"01", 5, 1);
    refused(b"$", b"tru", 5, 3);
    refused(b"$", b"", 5, 0);
}

#[test]
fn query_of_1024_bytes_and_of_1025() {
    let padded = |length: usize| [b"$", vec![b' '; length - 3].as_slice(), b".a"].concat();
    let (answer, lent) = listed(&padded(1_024), br#"{"a":1}"#, 2);
    assert_eq!(answer, Answer { ground: 0, place: 0, pairs: 1, peak: 0 });
    assert_eq!(lent, [5, 6]);
    refused(&padded(1_025), br#"{"a":1}"#, 1, 1_024);
    refused(&[b'x'; 1_025], b"", 2, 0);
    refused(&[b'x'; 1_024], b"", 2, 0);
}

/// `before`, then so many letters, then `after`.
fn around(before: &str, letters: usize, after: &str) -> Vec<u8> {
    format!("{before}{}{after}", "a".repeat(letters)).into_bytes()
}

#[test]
fn faults_of_queries_over_1024_bytes() {
    let longer = |query: Vec<u8>, bytes: usize, ground: u32, place: usize| {
        assert_eq!(query.len(), bytes);
        refused(&query, b"7", ground, place);
        refused(&query, b"", ground, place);
    };
    // The dead byte at 1,023, at 1,024 and behind it.
    longer(around("$.", 1_021, "!"), 1_024, 2, 1_023);
    longer(around("$.", 1_021, "!a"), 1_025, 2, 1_023);
    longer(around("$.", 1_022, "!"), 1_025, 1, 1_024);
    longer(around("$.", 1_023, "!"), 1_026, 1, 1_024);
    longer(around("$.", 1_021, &"!".repeat(9_000)), 10_023, 2, 1_023);
    // None, in a query that is incomplete.
    longer(around("$['", 1_021, ""), 1_024, 2, 1_024);
    longer(around("$['", 1_022, ""), 1_025, 1, 1_024);
    // Ground 3 comes behind both.
    let sixteen = format!("${}", ".*".repeat(16));
    longer(around(&format!("{sixteen}."), 990, ""), 1_024, 3, 33);
    longer(around(&format!("{sixteen}."), 991, ""), 1_025, 1, 1_024);
    longer(around(&format!("{sixteen}.*!"), 989, ""), 1_025, 2, 35);
}

#[test]
fn query_of_16_steps_and_of_17() {
    let nested = [b"[".repeat(16), b"7".to_vec(), b"]".repeat(16)].concat();
    let (answer, lent) = listed(format!("${}", ".*".repeat(16)).as_bytes(), &nested, 2);
    assert_eq!(answer, Answer { ground: 0, place: 0, pairs: 1, peak: 15 });
    assert_eq!(lent, [16, 17]);
    refused(format!("${}", ".*".repeat(17)).as_bytes(), &nested, 3, 33);
    refused(format!("${}", "[*]".repeat(18)).as_bytes(), &nested, 3, 49);
    // The place is the first dot of a deep step; blanks before a step are no part of it.
    refused(format!("${} \t..['a'].b", ".*".repeat(16)).as_bytes(), &nested, 3, 35);
    // Ground 2 is tried before ground 3.
    refused(format!("${} ", ".*".repeat(17)).as_bytes(), &nested, 2, 36);
}

#[test]
fn nesting_of_512_and_of_513() {
    let nested = |levels: usize| [b"[".repeat(levels), b"]".repeat(levels)].concat();
    let (answer, lent) = listed(b"$..*", &nested(512), 2 * 511);
    assert_eq!(answer, Answer { ground: 0, place: 0, pairs: 511, peak: 0 });
    assert_eq!(lent[2 * 510..], [511, 513]);
    refused(b"$..*", &nested(513), 6, 512);
    // The smaller place decides between 5 and 6.
    refused(b"$", &b"[".repeat(512), 5, 512);
    refused(b"$", &b"[".repeat(600), 6, 512);
    refused(b"$", &[b"[".repeat(512), b",".to_vec(), b"[".repeat(9)].concat(), 5, 512);
    refused(b"$", &[b"[".repeat(513), b",".to_vec()].concat(), 6, 512);
    refused(b"$", &[b"{\"a\":".repeat(512), b"[".to_vec()].concat(), 6, 2_560);
    refused(b"$", &[b"{\"a\":".repeat(512), b"1[".to_vec()].concat(), 5, 2_561);
}

#[test]
fn nesting_is_counted_by_level_and_not_by_bracket() {
    let wide = format!("[{}[]]", "[],".repeat(2_000));
    let (answer, _) = listed(b"$.*", wide.as_bytes(), 0);
    assert_eq!(answer, Answer { ground: 7, place: 1, pairs: 0, peak: 0 });
    let in_string = format!("\"{}\"", "[".repeat(2_000));
    assert_eq!(listed(b"$", in_string.as_bytes(), 2).1, [0, 2_002]);
}

#[test]
fn list_exact_and_one_pair_short() {
    let record = br#"{"a":1,"b":[2],"c":"3"}"#;
    let (answer, lent) = listed(b"$.*", record, 6);
    assert_eq!(answer, Answer { ground: 0, place: 0, pairs: 3, peak: 1 });
    assert_eq!(lent, [5, 6, 11, 14, 19, 22]);
    for (numbers, kept) in [(4, &[][..]), (5, &[OLD][..])] {
        let (answer, lent) = listed(b"$.*", record, numbers);
        assert_eq!(answer, Answer { ground: 7, place: 19, pairs: 2, peak: 0 });
        assert_eq!(lent, [&[5, 6, 11, 14], kept].concat());
    }
    for numbers in [0, 1] {
        let (answer, lent) = listed(b"$.*", record, numbers);
        assert_eq!(answer, Answer { ground: 7, place: 5, pairs: 0, peak: 0 });
        assert_eq!(lent, vec![OLD; numbers]);
    }
}

#[test]
fn record_of_16777216_bytes_and_of_16777217() {
    let padded = |length: usize| [b"[8", vec![b' '; length - 4].as_slice(), b"9]"].concat();
    let long = |length: usize| [b"[\"", vec![b'x'; length - 4].as_slice(), b"\"]"].concat();
    assert_eq!(padded(MAX_RECORD).len(), MAX_RECORD);
    refused(b"$", &padded(MAX_RECORD), 5, MAX_RECORD - 2);
    refused(b"$", &padded(MAX_RECORD + 1), 4, MAX_RECORD);
    let (answer, lent) = listed(b"$.*", &long(MAX_RECORD), 2);
    assert_eq!(answer, Answer { ground: 0, place: 0, pairs: 1, peak: 0 });
    assert_eq!(lent, [1, MAX_RECORD as u32 - 1]);
    assert_eq!(
        find_value(&long(MAX_RECORD), 1),
        Value { ground: 0, place: 0, end: MAX_RECORD - 1 }
    );
    refused(b"$.*", &long(MAX_RECORD + 1), 4, MAX_RECORD);
    let too_long = Value { ground: 4, place: MAX_RECORD, end: 0 };
    assert_eq!(find_value(&long(MAX_RECORD + 1), 1), too_long);
    // Grounds 1 to 3 are tried before ground 4.
    refused(b"$ ", &long(MAX_RECORD + 1), 2, 2);
}

#[test]
fn brackets_and_quotes_at_bytes_63_and_64() {
    for place in [62, 63, 64, 65] {
        let blanks = " ".repeat(place);
        let at = place as u32;
        picks_out("$", &format!("{blanks}[1]"), &[(at, at + 3)], 0);
        picks_out(
            "$..*",
            &format!("[{}[2]]", " ".repeat(place - 1)),
            &[(at, at + 3), (at + 1, at + 2)],
            0,
        );
        let record = format!("[{}\"\\\"]\",5]", " ".repeat(place - 1));
        picks_out("$.*", &record, &[(at, at + 5), (at + 6, at + 7)], 0);
        let first = sort_block(record.as_bytes(), false, false);
        let second = sort_block(&record.as_bytes()[64..], first.inside, first.odd);
        let quotes = u128::from(first.quotes) | u128::from(second.quotes) << 64;
        assert_eq!(quotes, 1 << place | 1 << (place + 4));
        let closing = u128::from(first.closing) | u128::from(second.closing) << 64;
        assert_eq!(closing, 1 << (place + 7));
    }
}
