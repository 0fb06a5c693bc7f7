//! The input of the program that runs the vectors, run by the independent implementation, and its output.

use std::fs;
use vectors::{files, File, SUITE};

fn suite() -> String {
    fs::read_to_string(format!("{}/../../{SUITE}", env!("CARGO_MANIFEST_DIR"))).unwrap()
}

fn file<'a>(files: &'a [File], path: &str) -> &'a str {
    &files.iter().find(|file| file.path == path).unwrap().contents
}

#[test]
fn the_program_prints_what_is_expected() {
    let files = files(suite().as_bytes()).unwrap();
    let output = samples::output(file(&files, "crates/vectors/stdin"));
    assert_eq!(output.as_deref(), Ok(file(&files, "crates/vectors/stdout")));
}

/// A suite of one vector.
fn alone(vector: &str) -> Result<Vec<File>, String> {
    files(format!(r#"{{"tests":[{{"name":"n",{vector}}}]}}"#).as_bytes())
}

#[test]
fn a_vector_that_contradicts_the_papers_is_a_fault() {
    let document = r#""document":[1,{"a":2}]"#;
    let valid = |query: &str, values: &str, paths: &str| {
        alone(&format!(
            r#""selector":"{query}",{document},"result":{values},"result_paths":{paths}"#
        ))
    };
    assert!(valid("$.*", r#"[1,{"a":2}]"#, r#"["$[0]","$[1]"]"#).is_ok());
    assert!(valid("$..a", "[2]", r#"["$[1]['a']"]"#).is_ok());
    // A wrong value, a wrong path, a node too few, a node too many, no node at the path.
    assert!(valid("$..a", "[1]", r#"["$[1]['a']"]"#).is_err());
    assert!(valid("$..a", "[1]", r#"["$[0]"]"#).is_err());
    assert!(valid("$.*", "[1]", r#"["$[0]"]"#).is_err());
    assert!(valid("$.a", "[2]", r#"["$[1]['a']"]"#).is_err());
    assert!(valid("$.*", "[1,2]", r#"["$[0]","$[1]['b']"]"#).is_err());
    // A path that leads to the value but is not the normalized one.
    assert!(valid("$..a", "[2]", r#"["$[1]['\\u0061']"]"#).is_err());
    assert!(valid("$..a", "[2]", r#"["$[01]['a']"]"#).is_err());
    // Left out for no known reason; taken although it is said to be invalid; unknown members.
    assert!(valid("$&", "[]", "[]").is_err());
    assert!(alone(r#""selector":"$.a","invalid_selector":true"#).is_err());
    assert!(alone(r#""selector":"$","invalid_selector":true,"new":1"#).is_err());
    let repeated = r#""selector":"$.b","document":{"a":1,"a":2},"result":[],"result_paths":[]"#;
    assert!(alone(repeated).is_err());
}

/// What becomes of a vector: the fourth column of its row.
fn sort(vector: &str) -> String {
    let files = alone(vector).unwrap();
    let row = file(&files, "rust/vectors/vectors.tsv").lines().nth(1).unwrap();
    row.split('\t').nth(3).unwrap().to_string()
}

#[test]
fn vectors_are_sorted() {
    let ordered = r#""selector":"$..*","document":[[1],2],"result":[[1],2,1],
        "result_paths":["$[0]","$[1]","$[0][0]"]"#;
    assert_eq!(sort(ordered), "valid, ordered by first byte");
    let permitted = r#""selector":"$.*","document":{"a":1,"b":2},"results":[[2,1],[1,2]],
        "results_paths":[["$['b']","$['a']"],["$['a']","$['b']"]]"#;
    assert_eq!(sort(permitted), "valid as it stands");
    let repeated = r#""selector":"$..*..*","document":[[[1]]],"result":[[1],1,1],
        "result_paths":["$[0][0]","$[0][0][0]","$[0][0][0]"]"#;
    assert_eq!(sort(repeated), "valid, a repeated node listed once");
    let position = r#""selector":"$[1]","document":[7,8],"result":[8],"result_paths":["$[1]"]"#;
    assert_eq!(sort(position), "valid as it stands");
    let escape = r#""selector":"$['\\n']","document":{"\n":7,"n":8},"result":[7],
        "result_paths":["$['\\n']"]"#;
    assert_eq!(sort(escape), "valid as it stands");
    let left_out = |query: &str| {
        sort(&format!(r#""selector":"{query}","document":1,"result":[],"result_paths":[]"#))
    };
    assert_eq!(left_out("$[?@.a]"), "left out: a filter");
    assert_eq!(left_out("$[ -12 :]"), "left out: a slice");
    assert_eq!(left_out("$[::2]"), "left out: a slice");
    assert_eq!(left_out("$[1:]"), "left out: a slice");
    assert_eq!(left_out("$[-1]"), "left out: a position counted from the end");
    assert_eq!(left_out("$[1,0]"), "left out: several selectors in one bracket");
    assert_eq!(left_out("$['a',1]"), "left out: several selectors in one bracket");
    assert_eq!(sort(r#""selector":"$.","invalid_selector":true"#), "invalid in both grammars");
}

#[test]
fn escapes_in_names_and_paths() {
    let path = |document: &str, path: &str| {
        let vector = format!(
            r#""selector":"$.*","document":{document},"result":[1],"result_paths":["{path}"]"#
        );
        alone(&vector).map(|_| ())
    };
    assert_eq!(path(r#"{"a'b":1}"#, r"$['a\\'b']"), Ok(()));
    assert_eq!(path(r#"{"\\":1}"#, r"$['\\\\']"), Ok(()));
    assert_eq!(path(r#"{"\u000b\n":1}"#, r"$['\\u000b\\n']"), Ok(()));
    assert_eq!(path(r#"{"\"":1}"#, r#"$['\"']"#), Ok(()));
    assert!(path(r#"{"a":1}"#, r"$['a'").is_err());
}
