//! Answers in the output of `samples`, written by hand from document 01.

use samples::{notation, output, CASES, PILE_CASES};

/// A query of the output with what stands above and below it: the record and the numbers of the
/// list, as they are written, and the line of each walk.
struct Run {
    record: String,
    numbers: String,
    query: String,
    walks: [String; 2],
}

fn runs(cases: &str) -> Vec<Run> {
    let output = output(cases).unwrap();
    let (mut record, mut numbers, mut runs) = (String::new(), String::new(), Vec::new());
    let mut lines = output.lines();
    while let Some(line) = lines.next() {
        match notation::words(line) {
            ("record", text) => record = text.to_string(),
            ("list", text) => numbers = text.to_string(),
            ("query", text) => runs.push(Run {
                record: record.clone(),
                numbers: numbers.clone(),
                query: text.to_string(),
                walks: [(); 2].map(|()| lines.next().unwrap().to_string()),
            }),
            _ => {}
        }
    }
    runs
}

/// Query, record, numbers of the list; the four answers, and the list afterwards.
type Row = (&'static str, &'static str, usize, &'static str, &'static str);

/// The sample rows, in the order of document 01, with `$[00]` where it has `$[0]`, and then those of
/// change requests S-1 and S-2.
const ROWS: &[Row] = &[
    ("$", "7", 4, "0 0 1 0", " 0 1 rest 2"),
    ("$.M", r#"{"M":1,"M":2}"#, 5, "0 0 2 0", " 5 6 11 12 rest 1"),
    ("$..a..b", r#"{"a":{"a":{"b":1}}}"#, 4, "0 0 1 1", " 15 16 rest 2"),
    ("$..*", "[3,[4]]", 8, "0 0 3 0", " 1 2 3 6 4 5 rest 2"),
    ("$.*", "[3,[4]]", 3, "7 3 1 0", " 1 2 rest 1"),
    ("$ ['a' ]", r#"{"a":[]}"#, 4, "0 0 1 1", " 5 7 rest 2"),
    ("$.lot", r#"{"x":"lot\":9}"}"#, 2, "0 0 0 0", " rest 2"),
    ("", "7", 2, "2 0 0 0", " rest 2"),
    ("$.a~32;", "7", 2, "2 4 0 0", " rest 2"),
    ("$[00]", "7", 2, "2 3 0 0", " rest 2"),
    ("", "[1,]", 2, "2 0 0 0", " rest 2"),
    ("$.a~32;", "[1,]", 2, "2 4 0 0", " rest 2"),
    ("$[00]", "[1,]", 2, "2 3 0 0", " rest 2"),
    ("$", "[1,]", 2, "5 3 0 0", " rest 2"),
    ("$", "01", 2, "5 1 0 0", " rest 2"),
    ("$", "tru", 2, "5 3 0 0", " rest 2"),
    ("$", "", 2, "5 0 0 0", " rest 2"),
    ("$[2]", "[1,[2,3],4]", 4, "0 0 1 1", " 9 10 rest 2"),
    ("$..[0]", "[[7]]", 6, "0 0 2 0", " 1 4 2 3 rest 2"),
    ("$[0]", r#"{"0":1}"#, 2, "0 0 0 0", " rest 2"),
    ("$.lot", r#"{"l\u006ft":1}"#, 4, "0 0 1 0", " 12 13 rest 2"),
    (r"$['\u006cot']", r#"{"lot":1}"#, 4, "0 0 1 0", " 7 8 rest 2"),
    ("$['😀']", r#"{"\uD83D\uDE00":1}"#, 4, "0 0 1 0", " 16 17 rest 2"),
    (r"$['\ud83d\ude00']", r#"{"\uD83D\uDE00":1}"#, 4, "0 0 1 0", " 16 17 rest 2"),
    ("$['😀']", r#"{"😀":1}"#, 4, "0 0 1 0", " 8 9 rest 2"),
    (r"$['\ud83d\ude00']", r#"{"😀":1}"#, 4, "0 0 1 0", " 8 9 rest 2"),
    (r"$['\ud83d\ude00']", r#"{"\ud83d\ud83d\ude00":{"\u0061":1}}"#, 4, "0 0 0 1", " rest 4"),
    ("$.*", r#"{"\ud83d\ud83d\ude00":{"\u0061":1}}"#, 4, "0 0 1 1", " 22 34 rest 2"),
    ("$..a", r#"{"\ud83d\ud83d\ude00":{"\u0061":1}}"#, 4, "0 0 1 0", " 32 33 rest 2"),
];

/// A row for each limit, both sides.
const LIMITS: &[Row] = &[
    ("$~1021( ).a", r#"{"a":1}"#, 3, "0 0 1 0", " 5 6 rest 1"),
    ("$~1022( ).a", r#"{"a":1}"#, 3, "1 1024 0 0", " rest 3"),
    ("~1025(x)", r#"{"a":1}"#, 3, "2 0 0 0", " rest 3"),
    ("$.~1021(a)!a", r#"{"a":1}"#, 3, "2 1023 0 0", " rest 3"),
    ("$.~1022(a)!", r#"{"a":1}"#, 3, "1 1024 0 0", " rest 3"),
    ("$['~1021(a)", r#"{"a":1}"#, 3, "2 1024 0 0", " rest 3"),
    ("$['~1022(a)", r#"{"a":1}"#, 3, "1 1024 0 0", " rest 3"),
    ("$~16(.*).~990(a)", r#"{"a":1}"#, 3, "3 33 0 0", " rest 3"),
    ("$~16(.*).~991(a)", r#"{"a":1}"#, 3, "1 1024 0 0", " rest 3"),
    ("$~17(.*)!~989(a)", r#"{"a":1}"#, 3, "2 35 0 0", " rest 3"),
    ("$[9007199254740991]", "[[1,2],[3,4]]", 8, "0 0 0 1", " rest 8"),
    ("$[9007199254740992]", "[[1,2],[3,4]]", 8, "2 17 0 0", " rest 8"),
    ("$[4294967296]", "[[1,2],[3,4]]", 8, "0 0 0 1", " rest 8"),
    (r"$['~169(\u0061)aaaaa']", r#"{"~174(a)":1,"~175(a)":2}"#, 4, "0 0 1 0", " 178 179 rest 2"),
    (r"$['~169(\u0061)aaaaaa']", r#"{"~174(a)":1,"~175(a)":2}"#, 4, "1 1024 0 0", " rest 4"),
    (r"$['\uDBFF\uDFFF']", "7", 4, "0 0 0 0", " rest 4"),
    (r"$['\uD800\uD800']", "7", 4, "2 12 0 0", " rest 4"),
    (r"$['\uDC00']", "7", 4, "2 6 0 0", " rest 4"),
    ("$..[1]", "[[1,2],[3,4]]", 8, "0 0 3 0", " 4 5 7 12 10 11 rest 2"),
    ("$..a", r#"~511([){"a":7}~511(])"#, 4, "0 0 1 0", " 516 517 rest 2"),
    ("$..a", r#"~512([){"a":7}~512(])"#, 4, "6 512 0 0", " rest 4"),
    ("$..a.b", r#"~254([){"a":{"b":7},"b":8}~254(])"#, 4, "0 0 1 1", " 264 265 rest 2"),
    ("$..a.b", r#"~255([){"a":{"b":7},"b":8}~255(])"#, 4, "0 0 1 1", " 265 266 rest 2"),
    ("$..a.b", r#"~510([){"a":{"b":7},"b":8}~510(])"#, 4, "0 0 1 1", " 520 521 rest 2"),
    ("$..a.b", r#"{"a":[~255([){"x":[7],"b":8}~255(])]}"#, 4, "0 0 0 2", " rest 4"),
    ("$..*", "~512([)", 2, "5 512 0 0", " rest 2"),
    ("$..*", "~513([)", 2, "6 512 0 0", " rest 2"),
    ("$.*", r#"{"a":1,"b":[2],"c":"3"}"#, 6, "0 0 3 1", " 5 6 11 14 19 22 rest 0"),
    ("$.*", r#"{"a":1,"b":[2],"c":"3"}"#, 4, "7 19 2 0", " 5 6 11 14 rest 0"),
    ("$.*", "[[~61( )],5]", 8, "0 0 2 1", " 1 64 65 66 rest 4"),
    ("$.*", "[[~62( )],5]", 8, "0 0 2 1", " 1 65 66 67 rest 4"),
    ("$.*", r#"[["]~59(x)"],5]"#, 8, "0 0 2 1", " 1 65 66 67 rest 4"),
    ("$.*", r#"[["]~60(x)"],5]"#, 8, "0 0 2 1", " 1 66 67 68 rest 4"),
    ("$.*", r#"[["]~59(x)\"]"],5]"#, 8, "0 0 2 1", " 1 68 69 70 rest 4"),
];

/// Piles at the bounds of their queries, and without one.
const PILES: &[Row] = &[
    ("$~16(.a)", r#"~17({"a":)7~17(})"#, 4, "0 0 1 16", " 80 87 rest 2"),
    ("$~16(..a)", r#"~17({"a":)7~17(})"#, 4, "0 0 2 15", " 80 87 85 86 rest 0"),
    ("$..a.b.c", r#"~256({"a":{"b":)7~512(})"#, 4, "0 0 0 511", " rest 4"),
    ("$..a.b.c", r#"~256({"a":{"b":)[7]~512(})"#, 4, "6 2560 0 0", " rest 4"),
];

/// Small dead containers, at the end of a block that begins behind the first one's bracket.
const LEAPS: &[Row] = &[
    ("$.*", "[[],~60( )[],5]", 64, "0 0 3 1", " 1 3 64 66 67 68 rest 58"),
    ("$.*", "[[],~61( )[],5]", 64, "0 0 3 1", " 1 3 65 67 68 69 rest 58"),
    ("$.*", "[[],~62( )[],5]", 64, "0 0 3 1", " 1 3 66 68 69 70 rest 58"),
    ("$.*", "[[],[~70( )],[],[5],6]", 64, "0 0 5 1", " 1 3 4 76 77 79 80 83 84 85 rest 54"),
    ("$.*", "[[],\"~70([)\",[],[],5]", 64, "0 0 5 1", " 1 3 4 76 77 79 80 82 83 84 rest 54"),
];

/// Offset and record, what the value finder answers, and the part that the value reader lends.
const VALUES: &[(usize, &str, &str, &str)] = &[
    (1, r#"~32;{"a":[1,"]"]}~32;"#, "0 0 14", r#"{"a":[1,"]"]}"#),
    (6, r#"~32;{"a":[1,"]"]}~32;"#, "0 0 13", r#"[1,"]"]"#),
    (2, r#"~32;{"a":[1,"]"]}~32;"#, "8 2 0", ""),
    (12, r#"~32;{"a":[1,"]"]}~32;"#, "8 12 0", ""),
    (99, r#"~32;{"a":[1,"]"]}~32;"#, "8 99 0", ""),
    (1, "[1,]", "5 3 0", ""),
];

impl Run {
    /// Whether this is the run of a row; both walks have the same answers.
    fn is(&self, (query, record, numbers, answers, left): &Row) -> bool {
        let walk = |name: &str| format!("  {name} {answers} list{left}");
        let lent = (self.query.as_str(), self.record.as_str(), self.numbers.as_str());
        lent == (query, record, &numbers.to_string())
            && self.walks == [walk("plain"), walk("jumping")]
    }
}

#[test]
fn the_output_begins_with_the_sample_rows() {
    let runs = runs(CASES);
    for (run, row) in runs.iter().zip(ROWS) {
        assert!(run.is(row), "{row:?}");
    }
    assert!(runs.len() > ROWS.len());
}

#[test]
fn the_output_has_the_limits_and_the_leaps() {
    let runs = runs(CASES);
    for row in LIMITS.iter().chain(LEAPS) {
        assert!(runs.iter().any(|run| run.is(row)), "{row:?}");
    }
}

#[test]
fn the_output_has_the_piles() {
    let runs = runs(PILE_CASES);
    for row in PILES {
        assert!(runs.iter().any(|run| run.is(row)), "{row:?}");
    }
}

#[test]
fn the_output_has_the_values() {
    let output = output(CASES).unwrap();
    for (offset, record, answers, value) in VALUES {
        let (_, after) = output.split_once(&format!("\nrecord {record}\nvalue ")).unwrap();
        let (values, _) = after.split_once("\n\n").unwrap();
        let lines = format!("{offset}\n  finder {answers}\n  reader `{value}`");
        assert!(format!("{values}\n").contains(&format!("{lines}\n")), "{record} {lines}");
    }
}

#[test]
fn the_number_of_cases() {
    assert!(output(CASES).unwrap().ends_with("\n555 cases\n"));
    assert!(output(PILE_CASES).unwrap().ends_with("\n55 cases\n"));
}
