//! The header and the example in C: compiled with warnings as errors, linked with the archive and
//! run. A compiler that is missing fails these tests.

use std::io::Write;
use std::mem::{align_of, offset_of, size_of};
use std::path::{Path, PathBuf};
use std::process::{Command, Output, Stdio};
use woodcrock::sys::{Answer, Bound, Value, Words, Written};
use woodcrock::{MAX_FRAMES, MAX_QUERY, MAX_RECORD};

fn top_folder() -> &'static Path {
    Path::new(env!("CARGO_MANIFEST_DIR")).ancestors().nth(2).expect("the top folder")
}

/// Compiles a C program and links it with the archive.
fn compile(source: &Path, name: &str) -> PathBuf {
    let program = Path::new(env!("CARGO_TARGET_TMPDIR")).join(name);
    let mut command = Command::new("cc");
    command.args(["-std=c99", "-pedantic", "-Wall", "-Wextra", "-Werror", "-O2", "-I"]);
    command.arg(top_folder().join("include")).arg(source).arg(env!("WOODCROCK_ARCHIVE"));
    let output = command.arg("-o").arg(&program).output().expect("a C compiler");
    assert!(output.status.success(), "{}", String::from_utf8_lossy(&output.stderr));
    program
}

fn run(program: &Path, arguments: &[&str], input: &[u8]) -> Output {
    let mut command = Command::new(program);
    command.args(arguments).stdin(Stdio::piped()).stdout(Stdio::piped()).stderr(Stdio::piped());
    let mut process = command.spawn().expect("the program starts");
    process.stdin.take().expect("its input is a pipe").write_all(input).expect("it is read");
    process.wait_with_output().expect("the program ends")
}

#[test]
fn the_example() {
    let program = compile(&top_folder().join("examples/list.c"), "list");
    let output = run(&program, &["$..lot"], br#"{"a":{"lot":1},"lot":[2]}"#);
    assert_eq!(String::from_utf8_lossy(&output.stdout), "12 13 1\n21 24 [2]\n");
    assert_eq!((output.status.code(), output.stderr), (Some(0), Vec::new()));

    let many = format!("[{}0]", "0,".repeat(999));
    let output = run(&program, &["$[*]"], many.as_bytes());
    let lines: String = (0..1_000).map(|at| format!("{} {} 0\n", 2 * at + 1, 2 * at + 2)).collect();
    assert_eq!(String::from_utf8_lossy(&output.stdout), lines);

    let output = run(&program, &["$"], b"[1,]");
    let message = "refused: the record is not a JSON text (ground 5, place 3)\n";
    assert_eq!(String::from_utf8_lossy(&output.stderr), message);
    assert_eq!((output.status.code(), output.stdout), (Some(15), Vec::new()));
    assert_eq!(run(&program, &[], b"").status.code(), Some(2));
}

/// The limits and the layout of the structs are the same in C and in Rust, and the calls answer through
/// both.
#[test]
fn the_header() {
    let source = Path::new(env!("CARGO_MANIFEST_DIR")).join("tests/header.c");
    let output = run(&compile(&source, "header"), &[], b"");
    let layouts = [
        vec![MAX_QUERY, MAX_RECORD, MAX_FRAMES as usize],
        vec![size_of::<Answer>(), align_of::<Answer>()],
        vec![offset_of!(Answer, ground), offset_of!(Answer, place)],
        vec![offset_of!(Answer, pairs), offset_of!(Answer, peak)],
        vec![size_of::<Value>(), align_of::<Value>()],
        vec![offset_of!(Value, ground), offset_of!(Value, place), offset_of!(Value, end)],
        vec![size_of::<Written>(), align_of::<Written>()],
        vec![offset_of!(Written, ground), offset_of!(Written, place), offset_of!(Written, length)],
        vec![size_of::<Bound>(), align_of::<Bound>()],
        vec![offset_of!(Bound, ground), offset_of!(Bound, place)],
        vec![offset_of!(Bound, bounded), offset_of!(Bound, frames)],
        vec![size_of::<Words>(), align_of::<Words>()],
        vec![offset_of!(Words, quotes), offset_of!(Words, strings)],
        vec![offset_of!(Words, opening), offset_of!(Words, closing)],
        vec![offset_of!(Words, inside), offset_of!(Words, odd)],
    ];
    let line = |numbers: &Vec<usize>| {
        numbers.iter().map(usize::to_string).collect::<Vec<String>>().join(" ") + "\n"
    };
    let layouts: String = layouts.iter().map(line).collect();
    let answers = "plain 0 0 2 1: 1 2 3 6 9\njumping 7 3 1 0: 1 2 9\nempty 2 0 0 0\n\
                   value 0 0 6\nno value 8 2 0\npath 0 0 7: $[1][0].\nlong path 10 4 0: ......\n\
                   no record 5 0 0\nplain steps 0 0 1 1\na deep step 0 0 1 0\n\
                   mixed steps 0 0 0 511\nno steps 2 6 0 0\nno query 2 0 0 0\n\
                   words 12 e 1 20 0 0\nnone 0 0 0 0 1 1\n";
    assert_eq!(String::from_utf8_lossy(&output.stdout), layouts + answers);
    assert_eq!((output.status.code(), output.stderr), (Some(0), Vec::new()));
}
