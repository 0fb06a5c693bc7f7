//! Paths of nodes, worked out by hand from RFC 9535, section 2.7, and change request S-4.

use oracle::{write_path, Written, MAX_RECORD};

/// What the buffers of the tests hold before a call.
const OLD: u8 = 0xAA;

/// The writer's answers and the buffer that it leaves, lent with this many old bytes.
fn written(record: &[u8], offset: usize, bytes: usize) -> (Written, Vec<u8>) {
    let mut buffer = vec![OLD; bytes];
    let answer = write_path(record, offset, &mut buffer);
    (answer, buffer)
}

/// Asserts that this is the path of the node at the offset, in buffers that are as long and longer,
/// and that one byte less and none are too few.
fn has_path(record: impl AsRef<[u8]>, offset: usize, path: &str) {
    let (record, length) = (record.as_ref(), path.len());
    let shown = String::from_utf8_lossy(&record[..record.len().min(1_000)]);
    for beyond in [0, 1, 70] {
        let (answer, buffer) = written(record, offset, length + beyond);
        assert_eq!(String::from_utf8_lossy(&buffer[..length]), path, "{shown} {offset}");
        assert_eq!(answer, Written { ground: 0, place: 0, length }, "{shown} {offset}");
        assert_eq!(buffer[length..], vec![OLD; beyond], "{shown} {offset}");
    }
    for bytes in [length - 1, 0] {
        let too_long = Written { ground: 10, place: offset, length: 0 };
        assert_eq!(
            written(record, offset, bytes),
            (too_long, vec![OLD; bytes]),
            "{shown} {offset}"
        );
    }
}

/// Asserts that the call is refused on this ground at this place and writes nothing, whatever the
/// length of the buffer.
fn refused(record: impl AsRef<[u8]>, offset: usize, ground: u32, place: usize) {
    let record = record.as_ref();
    for bytes in [0, 1, 70] {
        let wanted = (Written { ground, place, length: 0 }, vec![OLD; bytes]);
        let shown = String::from_utf8_lossy(&record[..record.len().min(1_000)]);
        assert_eq!(written(record, offset, bytes), wanted, "{shown} {offset}");
    }
}

#[test]
fn examples_of_the_rfc() {
    has_path(r#"{"a":1}"#, 5, "$['a']");
    has_path("[0,1]", 3, "$[1]");
    has_path("[0,1,2,3,4]", 5, "$[2]");
    has_path(r#"{"a":{"b":[0,1,2]}}"#, 13, "$['a']['b'][1]");
    has_path(r#"{"\u000B":1}"#, 10, r"$['\u000b']");
    has_path(r#"{"\u0061":1}"#, 10, "$['a']");
}

#[test]
fn every_node_of_a_record_and_no_other_offset() {
    let record = r#" {"tank":7, "blend" :[ {"lot":1,"lot":[2]},{} ],"":"a"} "#;
    let paths = [
        (1, "$"),
        (9, "$['tank']"),
        (21, "$['blend']"),
        (23, "$['blend'][0]"),
        (30, "$['blend'][0]['lot']"),
        (38, "$['blend'][0]['lot']"),
        (39, "$['blend'][0]['lot'][0]"),
        (43, "$['blend'][1]"),
        (51, "$['']"),
    ];
    for offset in (0..record.len() + 3).chain([usize::MAX]) {
        match paths.iter().find(|(first, _)| *first == offset) {
            Some((_, path)) => has_path(record, offset, path),
            None => refused(record, offset, 8, offset),
        }
    }
}

#[test]
fn the_root() {
    for record in ["7", "[]", "{}", r#""$""#, "null"] {
        has_path(record, 0, "$");
        has_path(format!("\n {record} "), 2, "$");
    }
}

/// How the code points below 20 (hexadecimal) are written.
const CONTROLS: [&str; 0x20] = [
    r"\u0000", r"\u0001", r"\u0002", r"\u0003", r"\u0004", r"\u0005", r"\u0006", r"\u0007", r"\b",
    r"\t", r"\n", r"\u000b", r"\f", r"\r", r"\u000e", r"\u000f", r"\u0010", r"\u0011", r"\u0012",
    r"\u0013", r"\u0014", r"\u0015", r"\u0016", r"\u0017", r"\u0018", r"\u0019", r"\u001a",
    r"\u001b", r"\u001c", r"\u001d", r"\u001e", r"\u001f",
];

#[test]
fn every_control() {
    for (point, control) in CONTROLS.iter().enumerate() {
        let path = format!("$['x{control}']");
        has_path(format!(r#"{{"x\u{point:04x}":1}}"#), 11, &path);
        has_path(format!(r#"{{"x\u{point:04X}":1}}"#), 11, &path);
    }
    for (letter, control) in [('b', 8), ('t', 9), ('n', 10), ('f', 12), ('r', 13)] {
        let path = format!("$['{}']", CONTROLS[control]);
        has_path(format!(r#"{{"\{letter}":1}}"#), 6, &path);
    }
}

#[test]
fn characters_that_are_no_controls() {
    // The quotes, a slash and a backslash, as themselves, by two bytes and by digits.
    has_path(r#"{"'":1}"#, 5, r"$['\'']");
    has_path(r#"{"\u0027":1}"#, 10, r"$['\'']");
    has_path(r#"{"\"":1}"#, 6, r#"$['"']"#);
    has_path(r#"{"\u0022":1}"#, 10, r#"$['"']"#);
    has_path(r#"{"/":1}"#, 5, "$['/']");
    has_path(r#"{"\/":1}"#, 6, "$['/']");
    has_path(r#"{"\\":1}"#, 6, r"$['\\']");
    has_path(r#"{"\u005C":1}"#, 10, r"$['\\']");
    has_path(r#"{"\\'\\\\":1}"#, 11, r"$['\\\'\\\\']");
    has_path(r#"{"\\n\\u0061":1}"#, 14, r"$['\\n\\u0061']");
    // The first after the controls, the last of one byte, the first and the last of two, three and
    // four, and those beside the surrogate pairs: as themselves and by digits.
    for character in " ~\u{7F}\u{80}é\u{7FF}\u{800}\u{2028}\u{D7FF}\u{E000}\u{FFFF}".chars() {
        let path = format!("$['{character}']");
        has_path(format!(r#"{{"{character}":1}}"#), 4 + character.len_utf8(), &path);
        has_path(format!(r#"{{"\u{:04x}":1}}"#, character as u32), 10, &path);
        has_path(format!(r#"{{"\u{:04X}":1}}"#, character as u32), 10, &path);
    }
    for (character, pair) in
        [('\u{10000}', r"\ud800\udc00"), ('😀', r"\uD83D\ude00"), ('\u{10FFFF}', r"\uDBFF\uDFFF")]
    {
        has_path(format!(r#"{{"{character}":1}}"#), 8, &format!("$['{character}']"));
        has_path(format!(r#"{{"{pair}":1}}"#), 16, &format!("$['{character}']"));
    }
    // What looks like a part of a path is none in a name.
    has_path(r#"{"a']['b":1,"$[0]":2}"#, 10, r"$['a\'][\'b']");
    has_path(r#"{"a']['b":1,"$[0]":2}"#, 19, "$['$[0]']");
}

#[test]
fn positions() {
    let record = format!("[{}[0]]", "0,".repeat(1_000));
    for position in [0, 1, 9, 10, 11, 99, 100, 101, 255, 256, 999] {
        has_path(&record, 1 + 2 * position, &format!("$[{position}]"));
    }
    has_path(&record, 2_001, "$[1000]");
    has_path(&record, 2_002, "$[1000][0]");
    // Each array counts its own, and members count nothing.
    has_path("[[1,2],[3,4]]", 10, "$[1][1]");
    has_path(r#"{"a":1,"b":[2,{"c":3,"d":4}],"e":[5]}"#, 25, "$['b'][1]['d']");
    has_path(r#"{"a":1,"b":[2,{"c":3,"d":4}],"e":[5]}"#, 34, "$['e'][0]");
}

#[test]
fn members_of_one_name_have_one_path() {
    let record = r#"{"lot":{"w":1},"x":0,"l\u006ft":{"w":2,"\u0077":3}}"#;
    for offset in [12, 37, 48] {
        has_path(record, offset, "$['lot']['w']");
    }
    has_path(record, 7, "$['lot']");
    has_path(record, 32, "$['lot']");
}

#[test]
fn halves_of_surrogate_pairs() {
    // A high half alone, a low one alone, and with others around it.
    refused(r#"{"\ud83d":1}"#, 10, 9, 1);
    refused(r#"{"\uDE00":1}"#, 10, 9, 1);
    refused(r#"{"\ud800":1}"#, 10, 9, 1);
    refused(r#"{"\uDFFF":1}"#, 10, 9, 1);
    refused(r#"{"a\ud83db":1}"#, 12, 9, 1);
    refused(r#"{"\ud83d\ud83d\ude00":1}"#, 22, 9, 1);
    refused(r#"{"\ud83d\ude00\ude00":1}"#, 22, 9, 1);
    refused(r#"{"\ude00\ud83d":1}"#, 16, 9, 1);
    refused(r#"{"\ud83dx\ude00":1}"#, 17, 9, 1);
    refused(r#"{"\ud83d\\ude00":1}"#, 17, 9, 1);
    has_path(r#"{"\ud83d\ude00":1}"#, 16, "$['😀']");
    has_path(r#"{"\\ud83d":1}"#, 11, r"$['\\ud83d']");
    // In the node's own name, on the way, and on the way behind blanks and in an array.
    let record = r#"[{"a":[{ "\ud800" : {"b":[5]}}]}]"#;
    refused(record, 20, 9, 9);
    refused(record, 25, 9, 9);
    refused(record, 26, 9, 9);
    has_path(record, 7, "$[0]['a'][0]");
    // Beside the way, below the node, and in values.
    has_path(r#"{"\ud800":1,"a":2}"#, 16, "$['a']");
    has_path(r#"{"a":2,"\ud800":1}"#, 5, "$['a']");
    has_path(r#"[{"\ud800":[1]},2]"#, 16, "$[1]");
    has_path(r#"{"a":{"\ud800":1}}"#, 5, "$['a']");
    has_path(r#"{"a":"\ud800"}"#, 5, "$['a']");
    has_path(r#"["\ud800",{"a":"\udc00","b":2}]"#, 28, "$[1]['b']");
    // The outermost of several.
    let record = r#"{"a":{"\ud800":{"\udc00":{"b":1}}}}"#;
    refused(record, 15, 9, 6);
    refused(record, 25, 9, 6);
    refused(record, 30, 9, 6);
}

#[test]
fn grounds_in_their_order() {
    // Ground 5 before 8, 9 and 10, and so ground 6; the smaller place decides between them.
    for offset in [0, 1, 10, 99] {
        refused(r#"{"\ud800":1,}"#, offset, 5, 12);
    }
    refused("", 0, 5, 0);
    refused("7 7", 0, 5, 2);
    let deep =
        |levels: usize| format!(r#"{}7{}"#, r#"{"\ud800":"#.repeat(levels), "}".repeat(levels));
    for offset in [0, 1, 10, usize::MAX] {
        refused(deep(513), offset, 6, 5_120);
        refused(format!("{}]", deep(513)), offset, 6, 5_120);
        refused(deep(512) + "]", offset, 5, deep(512).len());
    }
    // Ground 8 before 9: a name, a colon and a closing brace are no value.
    for offset in [1, 2, 9, 11, 12] {
        refused(r#"{"\ud800":1}"#, offset, 8, offset);
    }
    // Ground 9 before 10, and no ground at the root.
    refused(deep(512), 5_120, 9, 1);
    has_path(deep(512), 0, "$");
}

#[test]
fn nesting_of_512() {
    let record = format!(r#"{}{{"a":7}}{}"#, "[".repeat(511), "]".repeat(511));
    has_path(&record, 511, &format!("${}", "[0]".repeat(511)));
    has_path(&record, 516, &format!("${}['a']", "[0]".repeat(511)));
    let record = format!(r#"{}[5,6]{}"#, r#"{"'":"#.repeat(511), "}".repeat(511));
    has_path(&record, 2_558, &format!("${}[1]", r"['\'']".repeat(511)));
}

#[test]
fn record_of_16777216_bytes_and_of_16777217() {
    let name = |length: usize| [b"{\"", vec![b'\''; length - 6].as_slice(), b"\":7}"].concat();
    let path = format!("$['{}']", r"\'".repeat(MAX_RECORD - 6)).into_bytes();
    let length = path.len();
    assert!(length <= 2 * MAX_RECORD);
    let taken = written(&name(MAX_RECORD), MAX_RECORD - 2, length);
    assert!(taken == (Written { ground: 0, place: 0, length }, path));
    let too_long = (Written { ground: 4, place: MAX_RECORD, length: 0 }, vec![OLD; 2]);
    assert_eq!(written(&name(MAX_RECORD + 1), MAX_RECORD - 1, 2), too_long);
    // Ground 4 before 5.
    assert_eq!(written(&vec![b']'; MAX_RECORD + 1], 0, 2), too_long);
    refused(vec![b']'; MAX_RECORD], 0, 5, 0);
}
