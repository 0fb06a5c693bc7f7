//! The dead byte, against its own words: over small alphabets every short string is tried, and a
//! prefix is alive if a text that the grammar makes begins with it. Each grammar below is the
//! paper's, with those bytes only that are among the letters tried.

#[path = "common/grammar.rs"]
mod grammar;

use grammar::{dead_bytes_agree, Rule};
use oracle::{code_point, dead_byte, read_steps};

/// RFC 8259, sections 2 to 5, with one letter for each class of bytes.
const STRUCTURE: &[Rule] = &[
    ("JSON-text", &["ws value ws"]),
    ("value", &["number", "string", "[ ws ]", "[ elements ]", "{ ws }", "{ members }"]),
    ("number", &["1", "1 number"]),
    ("elements", &["ws value ws", "ws value ws , elements"]),
    ("members", &["member", "member , members"]),
    ("member", &["ws string ws : ws value ws"]),
    ("string", &["\" characters \""]),
    ("characters", &["", "character characters"]),
    ("character", &["1", "SP", "[", "]", "{", "}", ",", ":"]),
    ("ws", &["", "SP ws"]),
];

const ARRAYS: &[Rule] = &[
    ("JSON-text", &["ws value ws"]),
    ("value", &["number", "[ ws ]", "[ elements ]"]),
    ("number", &["1", "1 number"]),
    ("elements", &["ws value ws", "ws value ws , elements"]),
    ("ws", &["", "SP ws"]),
];

const OBJECTS: &[Rule] = &[
    ("JSON-text", &["value"]),
    ("value", &["string", "{ }", "{ members }"]),
    ("members", &["string : value", "string : value , members"]),
    ("string", &["\" characters \""]),
    ("characters", &["", "character characters"]),
    ("character", &["{", "}", ",", ":"]),
];

#[test]
fn structure_of_records() {
    dead_bytes_agree(STRUCTURE, b"1\"[]{},: ", 5, dead_byte);
    dead_bytes_agree(ARRAYS, b"1[], ", 8, dead_byte);
    dead_bytes_agree(OBJECTS, b"\"{},:", 8, dead_byte);
}

/// RFC 8259, section 6.
const NUMBERS: &[Rule] = &[
    ("JSON-text", &["ws value ws"]),
    ("value", &["number", "[ ws ]", "[ ws value ws ]"]),
    ("number", &["sign int frac exp"]),
    ("sign", &["", "-"]),
    ("int", &["0", "1 digits"]),
    ("digits", &["", "0 digits", "1 digits"]),
    ("frac", &["", ". digit digits"]),
    ("exp", &["", "letter plus digit digits"]),
    ("letter", &["e", "E"]),
    ("plus", &["", "+", "-"]),
    ("digit", &["0", "1"]),
    ("ws", &["", "SP ws"]),
];

#[test]
fn numbers() {
    dead_bytes_agree(NUMBERS, b"-+01.eE ", 7, dead_byte);
    dead_bytes_agree(NUMBERS, b"[]-0.e1", 7, dead_byte);
}

/// RFC 8259, section 3.
const WORDS: &[Rule] =
    &[("JSON-text", &["ws true ws", "ws false ws", "ws null ws"]), ("ws", &["", "SP ws"])];

#[test]
fn words() {
    dead_bytes_agree(WORDS, b"trufalsn ", 6, dead_byte);
}

/// RFC 8259, section 7: escapes.
const ESCAPES: &[Rule] = &[
    ("JSON-text", &["\" characters \"", "nines"]),
    ("nines", &["9", "9 nines"]),
    ("characters", &["", "character characters"]),
    ("character", &["u", "a", "9", "/", "\\ \\", "\\ \"", "\\ /", "\\ u hex hex hex hex"]),
    ("hex", &["a", "9"]),
];

#[test]
fn escapes() {
    dead_bytes_agree(ESCAPES, b"\"\\ua9/", 8, dead_byte);
}

/// Whether some UTF-8 text begins with these bytes, by the standard library.
fn begins_utf8(bytes: &[u8]) -> bool {
    std::str::from_utf8(bytes).map_or_else(|fault| fault.error_len().is_none(), |_| true)
}

#[test]
fn code_points_by_the_standard_library() {
    let edges = [
        0x00, 0x1F, 0x20, 0x7F, 0x80, 0x8F, 0x90, 0x9F, 0xA0, 0xBF, 0xC0, 0xC1, 0xC2, 0xDF, 0xE0,
        0xE1, 0xEC, 0xED, 0xEE, 0xEF, 0xF0, 0xF1, 0xF3, 0xF4, 0xF5, 0xFF,
    ];
    let mut checked = 0;
    for first in 0..=255 {
        for second in 0..=255 {
            for third in edges {
                for fourth in edges {
                    let bytes = [first, second, third, fourth];
                    let dead = (0..4).find(|&at| !begins_utf8(&bytes[..=at]));
                    let complete = (1..=4).find(|&end| std::str::from_utf8(&bytes[..end]).is_ok());
                    assert_eq!(code_point(&bytes, 0).ok(), complete);
                    assert_eq!(code_point(&bytes, 0).err(), dead.filter(|_| complete.is_none()));
                    checked += 1;
                }
            }
        }
    }
    assert_eq!(checked, 256 * 256 * edges.len() * edges.len());
    assert_eq!(code_point(&[0xF0, 0x90], 0), Err(2));
}

#[test]
fn strings_by_the_standard_library() {
    for first in 0x20..=255 {
        for second in 0x20..=255 {
            let bytes = [b'"', first, second, 0x80, 0x80, b'"'];
            if bytes[1..3].iter().any(|byte| b"\"\\".contains(byte)) {
                continue;
            }
            let dead = (0..bytes.len()).find(|&at| !begins_utf8(&bytes[..=at]));
            assert_eq!(dead_byte(&bytes), dead);
        }
    }
}

/// Document 01, "The part of RFC 9535", with positions but no escapes, and with one letter for each
/// class of bytes.
const QUERIES: &[Rule] = &[
    ("query", &["$ steps"]),
    ("steps", &["", "blanks step steps"]),
    ("step", &["dots shorthand", "brackets", ". . brackets"]),
    ("dots", &[".", ". ."]),
    ("shorthand", &["*", "letter letters"]),
    ("letter", &["a", "é"]),
    ("letters", &["", "letter letters", "0 letters", "1 letters"]),
    ("brackets", &["[ blanks selector blanks ]"]),
    ("selector", &["*", "' single '", "\" double \"", "0", "1 digits"]),
    ("digits", &["", "0 digits", "1 digits"]),
    ("single", &["", "common single", "\" single"]),
    ("double", &["", "common double", "' double"]),
    ("common", &["letter", "0", "1", "SP", "*", "$", ".", "[", "]"]),
    ("blanks", &["", "SP blanks"]),
];

/// RFC 9535, section 2.3.1.1: the escapes of quoted names.
const QUERY_ESCAPES: &[Rule] = &[
    ("query", &["$ steps"]),
    ("steps", &["", "[ ' single ' ] steps", "[ \" double \" ] steps", "[ position ] steps"]),
    ("position", &["0", "8 digits"]),
    ("digits", &["", "0 digits", "8 digits"]),
    ("single", &["", "common single", "\" single", "\\ ' single"]),
    ("double", &["", "common double", "' double", "\\ \" double"]),
    ("common", &["letter", "\\ /", "\\ \\", "\\ u hexchar"]),
    ("letter", &["u", "U", "D", "d", "C", "8", "0", "/", "$", "[", "]"]),
    ("hexchar", &["non-surrogate", "high-surrogate \\ u low-surrogate"]),
    ("non-surrogate", &["not-d hex hex hex", "d-either 0 hex hex"]),
    ("high-surrogate", &["d-either 8 hex hex"]),
    ("low-surrogate", &["d-either C hex hex", "d-either d-either hex hex"]),
    ("not-d", &["0", "8", "C"]),
    ("d-either", &["d", "D"]),
    ("hex", &["0", "8", "C", "d-either"]),
];

/// The dead byte of a query.
fn dead_query_byte(query: &[u8]) -> Option<usize> {
    read_steps(query).err()
}

#[test]
fn queries() {
    dead_bytes_agree(QUERIES, b"$.*[]'\"a1 ", 6, dead_query_byte);
    dead_bytes_agree(QUERIES, b"$.[]'\xC3\xA9", 7, dead_query_byte);
    dead_bytes_agree(QUERIES, b"$[]01 ", 7, dead_query_byte);
}

#[test]
fn escapes_of_queries() {
    dead_bytes_agree(QUERY_ESCAPES, b"$[]'\"\\/uU0", 7, dead_query_byte);
    // From the first digit on, and from the third of a high half.
    rest_agrees(b"$['\\u", &["hexchar single ' ] steps"], b"'\\udDC80", 6);
    rest_agrees(b"$['\\uD8", &["hex hex \\ u low-surrogate single ' ] steps"], b"'\\uUDC80", 8);
}

/// The dead bytes of queries that begin so, with these parts as the rest.
fn rest_agrees(before: &[u8], rest: &'static [&'static str], letters: &[u8], longest: usize) {
    let rules = [&[("rest", rest)], QUERY_ESCAPES].concat();
    dead_bytes_agree(&rules, letters, longest, |bytes| {
        dead_query_byte(&[before, bytes].concat()).map(|place| place - before.len())
    });
}
