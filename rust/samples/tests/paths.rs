//! Lines of paths in a file of cases, written by hand from change request S-4.

use samples::output;

/// A file with what stands below its lines.
const FILE: &str = r#"# a grower with two lots in one blend
list 64
record {"tank":7, "blend" :[{"lot":1,"lot":[2]}]}
path 0
  path 0 0 1 `$` rest 63
path 36
  path 0 0 20 `$['blend'][0]['lot']` rest 44
path 1
  path 8 1 0 `` rest 64

# a buffer that is exact, one byte short, and none
list 20
path 28
  path 0 0 20 `$['blend'][0]['lot']` rest 0
list 19
path 28
  path 10 28 0 `` rest 19
list 0
path 0
  path 10 0 0 `` rest 0

# escapes, and half of a surrogate pair
list 64
record {"it's\u000B\u00e9":[{"\ud83d":[1]}]}
path 21
  path 0 0 21 `$['it\'s\u000bé'][0]` rest 43
path 32
  path 9 22 0 `` rest 64
record [1,]
path 1
  path 5 3 0 `` rest 64
"#;

/// The lines that are no answers.
fn without_answers(file: &str) -> String {
    let lines = file.lines().filter(|line| !line.starts_with("  "));
    lines.map(|line| format!("{line}\n")).collect()
}

#[test]
fn paths_below_their_lines() {
    assert_eq!(output(&without_answers(FILE)).unwrap(), format!("{FILE}9 cases\n"));
}

#[test]
fn lines_that_cannot_be_read() {
    for wrong in ["list 65", "path", "path x", "path -1"] {
        assert!(output(&format!("record 7\n{wrong}\n")).is_err(), "{wrong}");
    }
}
