//! Hand-picked cases for each ground, and for the value finder and the value reader.

mod common;

use common::{listed, picks_out, refused};
use oracle::{class, find_value, read_value, Answer, Value};

/// Queries outside the grammar, each with its dead byte.
const DEAD_QUERIES: &[(&[u8], usize)] = &[
    (b" $", 0),
    (b"a", 0),
    (b"\xEF\xBB\xBF$", 0),
    (b"$ ", 2),
    (b"$ \t\n\r", 5),
    (b"$$", 1),
    (b"$a", 1),
    (b"$*", 1),
    (b"$.", 2),
    (b"$..", 3),
    (b"$...a", 3),
    (b"$. a", 2),
    (b"$.. a", 3),
    (b"$.['a']", 2),
    (b"$.1", 2),
    (b"$.a-b", 3),
    (b"$.a'", 3),
    (b"$.*a", 3),
    (b"$.**", 3),
    (b"$['a']b", 6),
    (b"$.a .", 5),
    (b"$.a\x0B.b", 3),
    (b"$[", 2),
    (b"$[ ", 3),
    (b"$[]", 2),
    (b"$[a]", 2),
    (b"$['a'", 5),
    (b"$['a' ", 6),
    (b"$['a\"", 5),
    (b"$['a'x", 5),
    (b"$['a','b']", 5),
    (b"$[*,*]", 3),
    (b"$['\\", 4),
    (b"$['\\'", 5),
    (b"$['\\x']", 4),
    (b"$['\\\"']", 4),
    (b"$[\"\\'\"]", 4),
    (b"$['\\U0041']", 4),
    (b"$['\\u']", 5),
    (b"$['\\u004']", 8),
    (b"$['\\u00g1']", 7),
    (b"$['\\uDC00']", 6),
    (b"$['\\udfff']", 6),
    (b"$['\\uD800']", 9),
    (b"$['\\uD800", 9),
    (b"$['\\uD800\\n']", 10),
    (b"$['\\uD800\\U']", 10),
    (b"$['\\uD800\\u0041']", 11),
    (b"$['\\uD800\\uD800']", 12),
    (b"$['\\uDBFF\\uDBFF']", 12),
    (b"$.a\\u0062", 3),
    (b"$.\\u0062", 2),
    (b"$['\x1F']", 3),
    (b"$['\x80']", 3),
    (b"$['\xC3']", 4),
    (b"$.\xC3", 3),
    (b"$.\xED\xA0\x80", 3),
    (b"$.a\xC0\x80", 3),
    (b"$[?@.a]", 2),
    (b"$[00]", 3),
    (b"$[01]", 3),
    (b"$[-0]", 2),
    (b"$[-1]", 2),
    (b"$[+1]", 2),
    (b"$[1.0]", 3),
    (b"$[1e2]", 3),
    (b"$[1 2]", 4),
    (b"$[1", 3),
    (b"$[1 ", 4),
    (b"$[1,2]", 3),
    (b"$[1:2]", 3),
    (b"$[1a]", 3),
    (b"$.0", 2),
    (b"$..0", 3),
    (b"$[9007199254740992]", 17),
    (b"$[9007199254740999]", 17),
    (b"$[9007199254741000]", 17),
    (b"$[9100000000000000]", 17),
    (b"$[10000000000000000]", 18),
    (b"$[99999999999999999999999999]", 17),
];

#[test]
fn dead_bytes_of_queries() {
    for &(query, place) in DEAD_QUERIES {
        refused(query, b"", 2, place);
        refused(query, b"7", 2, place);
    }
}

#[test]
fn queries_of_the_grammar() {
    let record = r#"{"a":1,"é":2,"":3,"'":4,"_9":5,"𝄞":6,"] ":7}"#;
    picks_out("$.a", record, &[(5, 6)], 0);
    picks_out("$.é", record, &[(12, 13)], 0);
    picks_out("$[\"é\"]", record, &[(12, 13)], 0);
    picks_out("$['']", record, &[(17, 18)], 0);
    picks_out("$[\"'\"]", record, &[(23, 24)], 0);
    picks_out("$._9", record, &[(30, 31)], 0);
    picks_out("$\n.𝄞", record, &[(39, 40)], 0);
    picks_out("$[\t'] '\r]", record, &[(46, 47)], 0);
    picks_out("$..['a']", record, &[(5, 6)], 0);
    picks_out("$['\u{7F}']", "{\"\u{7F}\":1}", &[(5, 6)], 0);
}

#[test]
fn positions() {
    picks_out("$[2]", "[1,[2,3],4]", &[(9, 10)], 1);
    picks_out("$[1][1]", "[1,[2,3],4]", &[(6, 7)], 1);
    picks_out("$[ 0\t]", "[1]", &[(1, 2)], 0);
    picks_out("$..[0]", "[[7]]", &[(1, 4), (2, 3)], 0);
    picks_out("$..[1]", "[[1,2],[3,4]]", &[(4, 5), (7, 12), (10, 11)], 0);
    picks_out("$.a[1]", r#"{"a":[1,2],"a":[3]}"#, &[(8, 9)], 1);
    // An object has no positions, and an array no names.
    picks_out("$[0]", r#"{"0":1}"#, &[], 0);
    picks_out("$..[1]", r#"{"a":1,"b":[2,{"c":3,"d":4}]}"#, &[(14, 27)], 0);
    picks_out("$['0']", "[1]", &[], 0);
    // The position is counted from 0, and far ones are those of no element.
    picks_out("$[3]", "[1,[2,3],4]", &[], 1);
    picks_out("$[4294967296]", "[1]", &[], 0);
    picks_out("$[9007199254740991]", "[1]", &[], 0);
}

/// Texts that are no JSON text, each with its dead byte.
const DEAD_RECORDS: &[(&[u8], usize)] = &[
    (b" \t\r\n", 4),
    (b"\xEF\xBB\xBF7", 0),
    (b"\x0B7", 0),
    (b"x", 0),
    (b"'a'", 0),
    (b"+1", 0),
    (b".5", 0),
    (b"-", 1),
    (b"-a", 1),
    (b"-01", 2),
    (b"00", 1),
    (b"1.", 2),
    (b"1.e5", 2),
    (b"1.5.", 3),
    (b"1e", 2),
    (b"1e+", 3),
    (b"1e+-", 3),
    (b"1E5x", 3),
    (b"1 2", 2),
    (b"0x1", 1),
    (b"tRue", 1),
    (b"truee", 4),
    (b"nul", 3),
    (b"fals ", 4),
    (b"True", 0),
    (b"[", 1),
    (b"[ ", 2),
    (b"[,", 1),
    (b"[1", 2),
    (b"[1 2]", 3),
    (b"[1,,2]", 3),
    (b"[1}", 2),
    (b"[]]", 2),
    (b"]", 0),
    (b"{", 1),
    (b"{]", 1),
    (b"{a:1}", 1),
    (b"{1:1}", 1),
    (b"{\"a\"", 4),
    (b"{\"a\"}", 4),
    (b"{\"a\" 1}", 5),
    (b"{\"a\":}", 5),
    (b"{\"a\":1", 6),
    (b"{\"a\":1,}", 7),
    (b"{\"a\":1]", 6),
    (b"{\"a\":1 \"b\":2}", 7),
    (b"\"", 1),
    (b"\"a", 2),
    (b"\"a\"b", 3),
    (b"\"\n\"", 1),
    (b"\"\x1F\"", 1),
    (b"\"\\", 2),
    (b"\"\\x\"", 2),
    (b"\"\\u12\"", 5),
    (b"\"\\uD80G\"", 6),
    (b"\"\x80\"", 1),
    (b"\"\xC1\x80\"", 1),
    (b"\"\xE0\x9F\"", 2),
    (b"\"\xED\xA0\"", 2),
    (b"\"\xF0\x90\x80\"", 4),
    (b"\"\xF4\x90\"", 2),
    (b"\"\xF5\"", 1),
];

#[test]
fn dead_bytes_of_records() {
    for &(record, place) in DEAD_RECORDS {
        refused(b"$", record, 5, place);
        refused(b"$..a", record, 5, place);
        let refusal = Value { ground: 5, place, end: 0 };
        assert_eq!(find_value(record, 0), refusal);
        assert_eq!(find_value(record, usize::MAX), refusal);
        assert_eq!(read_value(record, 0), b"");
    }
}

#[test]
fn records_of_the_grammar() {
    for record in [
        "0",
        "-0",
        "-1.50e-07",
        "1E+5",
        "true",
        "false",
        "null",
        "\"\"",
        "[]",
        "{}",
        " 7\r\n",
        r#""\"\\\/\b\f\n\r\t\u12aF""#,
        r#""\uD800""#,
        r#""\uDC00\uD800""#,
        "\"\u{7F}é☺𝄞\"",
        "[1 , 2 ]",
        "{ \"a\" : 1 , \"a\" : { } }",
    ] {
        let start = record.find(|c: char| !c.is_whitespace()).unwrap() as u32;
        picks_out("$", record, &[(start, record.trim_end().len() as u32)], 0);
    }
}

#[test]
fn names_are_compared_by_their_code_points() {
    picks_out("$.lot", r#"{"lots":1,"lo":2,"LOT":3,"lot":4}"#, &[(31, 32)], 0);
    picks_out("$.a", r#"{"\u0061":1,"a":2}"#, &[(10, 11), (16, 17)], 0);
    picks_out("$['u0061']", r#"{"\u0061":1}"#, &[], 0);
    picks_out("$['a']", r#"["a",{"a":1}]"#, &[], 1);
    picks_out("$.lot", r#"{"l\u006ft":1}"#, &[(12, 13)], 0);
    picks_out(r"$['\u006cot']", r#"{"lot":1}"#, &[(7, 8)], 0);
    picks_out("$.größe", r#"{"gr\u00f6\u00dfe":1}"#, &[(19, 20)], 0);
    for query in ["$['😀']", "$.😀", r"$['\ud83d\ude00']", r"$['\uD83D\uDE00']"] {
        picks_out(query, r#"{"\uD83D\uDE00":1}"#, &[(16, 17)], 0);
        picks_out(query, r#"{"\ud83d\ude00":1}"#, &[(16, 17)], 0);
        picks_out(query, r#"{"😀":1}"#, &[(8, 9)], 0);
        picks_out(query, r#"{"\ud83d\ud83d\ude00":1}"#, &[], 0);
        picks_out(query, r#"{"\ud83d":1,"\ude00":2,"\ude00\ud83d":3}"#, &[], 0);
    }
    picks_out("$.*", r#"{"\ud83d\ud83d\ude00":1}"#, &[(22, 23)], 0);
    picks_out("$..a", r#"{"\ud83d":{"\u0061":1}}"#, &[(20, 21)], 0);
    // Each escape of two bytes, and a backslash before a `u` that is escaped itself.
    picks_out(r"$['\b\t\n\f\r\/\\\'']", r#"{"\b\t\n\f\r\/\\'":1}"#, &[(19, 20)], 0);
    picks_out(r#"$["\/\""]"#, r#"{"/\"":1}"#, &[(7, 8)], 0);
    picks_out(r"$['\\u0061']", r#"{"\u0061":1,"\\u0061":2}"#, &[(22, 23)], 0);
    // Nothing is folded or composed: é is not e and an accent.
    picks_out("$.é", r#"{"e\u0301":1,"É":2,"\u00e9":3}"#, &[(29, 30)], 0);
}

#[test]
fn members_of_one_name_are_all_nodes() {
    let record = r#"{"lot":{"w":1},"x":0,"lot":{"w":2,"w":3}}"#;
    picks_out("$.lot", record, &[(7, 14), (27, 40)], 1);
    picks_out("$.lot.w", record, &[(12, 13), (32, 33), (38, 39)], 1);
}

#[test]
fn a_node_reached_in_several_ways_is_one() {
    picks_out("$..*..*", "[[[1]]]", &[(2, 5), (3, 4)], 1);
    picks_out("$..a..a", r#"{"a":{"a":{"a":1}}}"#, &[(10, 17), (15, 16)], 1);
}

#[test]
fn frames_and_the_peak() {
    // A frame is counted for an empty container too, and for the change to no marks.
    picks_out("$.b", r#"{"a":{}}"#, &[], 1);
    picks_out("$.b", r#"{"a":1}"#, &[], 0);
    picks_out("$", "[[[]]]", &[(0, 6)], 0);
    // Below a dead container the marks stay the same.
    picks_out("$.b", r#"{"a":{"a":{}}}"#, &[], 1);
    picks_out("$.*.*", "[[[1]]]", &[(2, 5)], 2);
    // The marks come and go on one path.
    picks_out("$..a.b", r#"{"a":{"b":{"a":{"b":{}}}}}"#, &[(10, 24), (20, 22)], 4);
    // The greatest number on one path, not the sum over paths.
    picks_out("$.a.*", r#"[{},{},[[]]]"#, &[], 1);
}

#[test]
fn the_value_finder() {
    let record = br#" {"a":[1,"b"],"c":{}} "#;
    let values: [(usize, &[u8]); 5] = [
        (1, br#"{"a":[1,"b"],"c":{}}"#),
        (6, br#"[1,"b"]"#),
        (7, b"1"),
        (9, br#""b""#),
        (18, b"{}"),
    ];
    for offset in (0..record.len() + 3).chain([usize::MAX]) {
        let part = values.iter().find(|(start, _)| *start == offset).map(|(_, part)| *part);
        let wanted = match part {
            Some(part) => Value { ground: 0, place: 0, end: offset + part.len() },
            None => Value { ground: 8, place: offset, end: 0 },
        };
        assert_eq!(find_value(record, offset), wanted);
        assert_eq!(read_value(record, offset), part.unwrap_or(b""));
    }
    let deep = [b"[".repeat(513), b"]".repeat(513)].concat();
    assert_eq!(find_value(&deep, 0), Value { ground: 6, place: 512, end: 0 });
    let deep = [b"[".repeat(512), b"]".repeat(512)].concat();
    assert_eq!(find_value(&deep, 511), Value { ground: 0, place: 0, end: 513 });
}

#[test]
fn any_bytes_end_without_a_fault() {
    let deep = b"[".repeat(oracle::MAX_RECORD);
    assert_eq!(listed(b"$", &deep, 2).0, Answer { ground: 6, place: 512, pairs: 0, peak: 0 });
    for first in 0..=255u8 {
        for second in 0..=255u8 {
            let bytes = [first, second];
            listed(&bytes, &bytes, 3);
            listed(b"$", &bytes, 3);
        }
    }
}

#[test]
fn the_class_of_every_byte() {
    let classes = ["[{", "]}", ":", ",", "\"", "\\", " \t\n\r"];
    for byte in 0..=255 {
        let listed = classes.iter().position(|bytes| bytes.as_bytes().contains(&byte));
        assert_eq!(class(byte), listed.map_or(0, |index| index as u8 + 1));
    }
}
