//! Lines of bounds on the pile in a file of cases, written by hand from change request S-6.

use samples::{output, PILE_CASES};

/// A file with what stands below its lines.
const FILE: &str = r#"# no step, plain ones, and deep ones behind them
frames $
  frames 0 0 1 0
frames $.blend[0]
  frames 0 0 1 2
frames $.blend[0]..lot
  frames 0 0 1 2
frames $..blend..*..[0]
  frames 0 0 1 2

# a plain step behind a deep one
frames $..blend[0]
  frames 0 0 0 511
frames $.blend..*['lot']..grower
  frames 0 0 0 511

# each ground
frames $.~1023(a)
  frames 1 1024 0 0
frames $.~1021(a)!~2(a)
  frames 2 1023 0 0
frames
  frames 2 0 0 0
frames $.lot~32;
  frames 2 6 0 0
frames $..a~16(.a)
  frames 3 34 0 0

# a peak beside its bound
list 2
record {"blend":[{"grower":{"lot":1}}]}
query $.blend[0]..lot
  plain 0 0 1 2 list 27 28 rest 0
  jumping 0 0 1 2 list 27 28 rest 0
"#;

/// The lines that are no answers.
fn without_answers(file: &str) -> String {
    let lines = file.lines().filter(|line| !line.starts_with("  "));
    lines.map(|line| format!("{line}\n")).collect()
}

#[test]
fn bounds_below_their_lines() {
    assert_eq!(output(&without_answers(FILE)).unwrap(), format!("{FILE}12 cases\n"));
}

#[test]
fn lines_that_cannot_be_read() {
    for wrong in ["frames ~", "frames $.~3(a", "frames $.~256;"] {
        assert!(output(&format!("{wrong}\n")).is_err(), "{wrong}");
    }
}

/// Queries in the cases of `pile_samples`, and the four answers on each: every order of three steps, and both
/// sides of every limit.
const BOUNDS: &[(&str, &str)] = &[
    ("$", "0 0 1 0"),
    ("$.a", "0 0 1 1"),
    ("$..a", "0 0 1 0"),
    ("$[2]", "0 0 1 1"),
    ("$..[2]", "0 0 1 0"),
    ("$.*", "0 0 1 1"),
    ("$..[*]", "0 0 1 0"),
    ("$.a[0].*", "0 0 1 3"),
    ("$.a[0]..b", "0 0 1 2"),
    ("$.a..b..*", "0 0 1 2"),
    ("$..a..[0]..b", "0 0 1 2"),
    ("$.a..b['c']", "0 0 0 511"),
    ("$..a.b[0]", "0 0 0 511"),
    ("$..a.*..b", "0 0 0 511"),
    ("$..a..b[0]", "0 0 0 511"),
    ("$ ['..a'] [\"b..['c']\"]", "0 0 1 2"),
    ("$~16(.a)", "0 0 1 16"),
    ("$~17(.a)", "3 33 0 0"),
    ("$~16(..a)", "0 0 1 15"),
    ("$~17(..a)", "3 49 0 0"),
    ("$~15([0])..a", "0 0 1 15"),
    ("$~16([0])..a", "3 49 0 0"),
    ("$..a~15(.*)", "0 0 0 511"),
    ("$..a~16(.*)", "3 34 0 0"),
    ("$.~1022(a)", "0 0 1 1"),
    ("$.~1023(a)", "1 1024 0 0"),
    ("$..~1018(a)[0]", "0 0 0 511"),
    ("$..~1019(a)[0]", "1 1024 0 0"),
    ("$..a.b~32;", "2 7 0 0"),
    ("$.a..b.", "2 7 0 0"),
    ("$..[9007199254740991]", "0 0 1 0"),
    ("$..[9007199254740992]", "2 19 0 0"),
    ("$.~1021(a)!", "2 1023 0 0"),
    ("$.~1021(a)!a", "2 1023 0 0"),
    ("$.~1022(a)!", "1 1024 0 0"),
    ("$~17(.a)!", "2 35 0 0"),
    ("$.a.a", "0 0 1 2"),
    ("$.a.a..a", "0 0 1 2"),
    ("$..b.a", "0 0 0 511"),
];

#[test]
fn the_output_has_the_bounds() {
    let output = output(PILE_CASES).unwrap();
    for (query, answers) in BOUNDS {
        let lines = format!("\nframes {query}\n  frames {answers}\n");
        assert!(output.contains(&lines), "{lines}");
    }
}
