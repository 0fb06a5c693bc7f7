//! The command: what it prints, and its exit status for each refusal and fault.

use std::fs::File;
use std::io::{ErrorKind, Write};
use std::process::{Command, Output, Stdio};
use std::{env, fs, thread};
use woodcrock::{MAX_RECORD, MAX_STEPS};

/// Runs the command on this standard input, which it may leave unread.
fn run(arguments: &[&str], input: &[u8]) -> Output {
    let mut command = Command::new(env!("CARGO_BIN_EXE_woodcrock"));
    command.args(arguments).stdin(Stdio::piped()).stdout(Stdio::piped()).stderr(Stdio::piped());
    let mut process = command.spawn().expect("the command starts");
    let mut stdin = process.stdin.take().expect("its input is a pipe");
    thread::scope(|scope| {
        let writing = scope.spawn(move || stdin.write_all(input));
        let output = process.wait_with_output().expect("the command ends");
        match writing.join().expect("the writing ends") {
            Err(fault) if fault.kind() != ErrorKind::BrokenPipe => panic!("{fault}"),
            _ => output,
        }
    })
}

/// Runs it where it is to print this and nothing else.
fn prints(arguments: &[&str], input: &[u8], expected: &str) {
    let output = run(arguments, input);
    assert_eq!(String::from_utf8_lossy(&output.stderr), "");
    assert_eq!(String::from_utf8_lossy(&output.stdout), expected);
    assert_eq!(output.status.code(), Some(0));
}

/// Runs it where it is to fail with this status and message.
fn fails(arguments: &[&str], input: &[u8], status: i32, message: &str) {
    let output = run(arguments, input);
    assert_eq!(String::from_utf8_lossy(&output.stderr), format!("woodcrock: {message}\n"));
    assert_eq!((output.stdout.len(), output.status.code()), (0, Some(status)));
}

const RECORD: &[u8] = b"{\n  \"a\": { \"lot\": \"x  \\\" ]\" },\n  \"lot\": [ 2,\r\n\t3 ]\n}\n";

#[test]
fn each_output() {
    for walk in [&["--"][..], &["--plain", "--"]] {
        let with = |options: &[&'static str]| [options, walk, &["$..lot"]].concat();
        prints(&with(&[]), RECORD, "\"x  \\\" ]\"\n[2,3]\n");
        prints(&with(&["--raw"]), RECORD, "\"x  \\\" ]\"\n[ 2,\r\n\t3 ]\n");
        prints(&with(&["--offsets"]), RECORD, "18 27\n40 50\n");
        prints(&with(&["--count"]), RECORD, "2\n");
    }
    prints(&["$.none"], RECORD, "");
    prints(&["$.none", "-", "--count"], RECORD, "0\n");
}

#[test]
fn paths() {
    for walk in [&["--"][..], &["--plain", "--"]] {
        let with = |query: &'static str| [&["--paths"], walk, &[query]].concat();
        prints(&with("$..lot"), RECORD, "$['a']['lot']\n$['lot']\n");
        prints(&with("$"), RECORD, "$\n");
        prints(&with("$.lot.*"), RECORD, "$['lot'][0]\n$['lot'][1]\n");
        prints(&with("$.none"), RECORD, "");
        // Members of one name, and a name in which every character is one of a path.
        prints(&with("$.M"), br#"{"M":1,"M":2}"#, "$['M']\n$['M']\n");
        let name = "{\"\\u000a']\\\\\\u0001\\u00e9\":1}";
        prints(&with("$.*"), name.as_bytes(), "$['\\n\\']\\\\\\u0001é']\n");
    }
    let long = "'".repeat(1_000);
    let path = format!("$['{}']\n", r"\'".repeat(1_000));
    prints(&["--paths", "$.*"], format!("{{\"{long}\":1}}").as_bytes(), &path);
}

/// A value without a path is told, and the others have theirs.
#[test]
fn values_without_a_path() {
    let run_on = |record: &str| {
        let output = run(&["--paths", "$..*"], record.as_bytes());
        let text = |bytes: Vec<u8>| String::from_utf8(bytes).expect("text");
        (text(output.stdout), text(output.stderr), output.status.code())
    };
    let half = "has half of a surrogate pair";
    let (out, told, status) = run_on("{\"a\":1,\n \"\\ud800\":2,\"b\":3}");
    assert_eq!(out, "$['a']\n$['b']\n");
    let first = format!("no path for the value at byte 18: the name at byte 9 {half}");
    let all = "woodcrock: 1 value has no path";
    assert_eq!(told, format!("woodcrock: {first} (line 2, column 2)\n{all}\n"));
    assert_eq!(status, Some(19));
    let (out, told, status) = run_on(r#"[{"\udc00":{"\ud800":2}}]"#);
    assert_eq!(out, "$[0]\n");
    let line = |value: usize| {
        let why = format!("the name at byte 2 {half} (line 1, column 3)");
        format!("woodcrock: no path for the value at byte {value}: {why}\n")
    };
    assert_eq!(told, line(11) + &line(21) + "woodcrock: 2 values have no path\n");
    assert_eq!(status, Some(19));
}

#[test]
fn the_bound_on_the_pile() {
    for (query, bound) in [
        ("$", "0\n"),
        ("$.a", "1\n"),
        ("$..a", "0\n"),
        ("$.blend[0]..lot", "2\n"),
        ("$['a'].*[7]", "3\n"),
        ("$..a..*", "1\n"),
        ("$..a.b", "none\n"),
        ("$.a..b['c']..d", "none\n"),
    ] {
        prints(&["--pile", query], b"", bound);
        prints(&["--plain", "--pile", "--pile", "--", query], b"[", bound);
    }
    let steps = |step: &str| format!("${}", step.repeat(MAX_STEPS));
    prints(&["--pile", &steps(".a")], b"", "16\n");
    prints(&["--pile", &steps("..a")], b"", "15\n");
}

/// The standard input is not read: one that is a folder cannot be.
#[test]
fn the_bound_on_the_pile_without_a_record() {
    let mut command = Command::new(env!("CARGO_BIN_EXE_woodcrock"));
    let output = |command: &mut Command| {
        let folder = File::open("/").expect("a folder can be opened");
        let output = command.stdin(folder).output().expect("the command ends");
        (output.stdout, output.status.code())
    };
    assert_eq!(output(command.args(["--pile", "$.a"])), (b"1\n".to_vec(), Some(0)));
    let mut command = Command::new(env!("CARGO_BIN_EXE_woodcrock"));
    assert_eq!(output(command.arg("$.a")), (Vec::new(), Some(1)));
}

#[test]
fn long_values_on_one_line() {
    let string = format!("\"{}\\\\\"", " \\\" ".repeat(100));
    let record = format!("[ {string} , [ {string} ] ]");
    prints(&["$"], record.as_bytes(), &format!("[{string},[{string}]]\n"));
}

#[test]
fn a_file() {
    let path = env::temp_dir().join(format!("woodcrock-{}.json", std::process::id()));
    fs::write(&path, RECORD).expect("a file can be written");
    prints(&["$.a", path.to_str().unwrap()], b"", "{\"lot\":\"x  \\\" ]\"}\n");
    fs::remove_file(&path).expect("a file can be removed");
    let gone = format!("{}: No such file or directory (os error 2)", path.display());
    fails(&["$.a", path.to_str().unwrap()], b"", 1, &gone);
    fails(&["$.a", "/"], b"", 1, "/: Is a directory (os error 21)");
}

#[test]
fn the_help() {
    let output = run(&["--help"], b"");
    assert_eq!(output.status.code(), Some(0));
    let text = String::from_utf8_lossy(&output.stdout);
    assert!(text.contains("usage: woodcrock") && text.contains("511 frames"));
}

#[test]
fn wrong_usage() {
    let how = "--help says how it is used";
    fails(&[], b"", 2, &format!("a query is missing; {how}"));
    fails(&["--verbose", "$"], b"7", 2, &format!("no option --verbose; {how}"));
    fails(&["$", "a", "b"], b"7", 2, &format!("a word too many: b; {how}"));
    let one = format!("only one of --raw, --offsets, --count, --paths and --pile; {how}");
    fails(&["--count", "--raw", "$"], b"7", 2, &one);
    fails(&["--paths", "--offsets", "$"], b"7", 2, &one);
    for other in ["--raw", "--offsets", "--count", "--paths"] {
        fails(&["--pile", other, "$"], b"7", 2, &one);
        fails(&[other, "--pile", "$"], b"7", 2, &one);
    }
    fails(&["--pile"], b"", 2, &format!("a query is missing; {how}"));
    fails(&["--pile", "$", "a"], b"7", 2, &format!("a word too many: a; {how}"));
    fails(&["--pile", "$", "-"], b"7", 2, &format!("a word too many: -; {how}"));
}

#[test]
fn refusals_of_the_query() {
    let refused = |query: &str, status: i32, message: &str| {
        fails(&[query], b"7", status, message);
        fails(&["--pile", query], b"7", status, message);
    };
    let long = format!("$.{}", "a".repeat(1_023));
    refused(&long, 11, "the query has more than 1024 bytes");
    let broken = format!("{}!{long}", &long[..1_023]);
    let shown = format!("…{}!$.{}…\n  {}^", "a".repeat(60), "a".repeat(57), " ".repeat(61));
    refused(&broken, 12, &format!("the query is malformed at byte 1023\n  {shown}"));
    let shown = format!("${}…\n   ^", "a".repeat(60));
    let broken = long.replace("$.", "$");
    refused(&broken, 12, &format!("the query is malformed at byte 1\n  {shown}"));
    refused("$[00]", 12, "the query is malformed at byte 3\n  $[00]\n     ^");
    refused("$.é. b", 12, "the query is malformed at byte 5\n  $.é. b\n      ^");
    refused("$.a.", 12, "the query is incomplete\n  $.a.\n      ^");
    refused("$\u{1}", 12, "the query is malformed at byte 1");
    refused("", 12, "the query is incomplete\n  \n  ^");
    let steps = format!("${}", ".a".repeat(MAX_STEPS + 1));
    let message = "the query has more than 16 steps at byte 33";
    refused(&steps, 13, &format!("{message}\n  {steps}\n  {}^", " ".repeat(33)));
}

#[test]
fn refusals_of_the_record() {
    let mut longest = vec![b' '; MAX_RECORD];
    longest[7] = b'7';
    prints(&["--offsets", "$"], &longest, "7 8\n");
    longest.push(b' ');
    fails(&["$"], &longest, 14, "the record has more than 16777216 bytes");
    fails(&["$"], b"[1,\n 2,]", 15, "the record is malformed at byte 7 (line 2, column 4)");
    let malformed = "the record is malformed at byte 3 (line 1, column 4)";
    fails(&["--paths", "$"], b"[1,]", 15, malformed);
    fails(&["$"], b"\"\xFF\"", 15, "the record is malformed at byte 1 (line 1, column 2)");
    let incomplete = "the record is incomplete: it ends at byte 3 (line 1, column 4)";
    fails(&["$"], b"tru", 15, incomplete);
    let deep = "the record is nested deeper than 512 levels at byte 513 (line 2, column 513)";
    fails(&["$"], ["\n", &"[".repeat(600)].concat().as_bytes(), 16, deep);
}

/// A reader that goes away early ends the command without a message.
#[test]
fn a_reader_that_goes_away() {
    let record = format!("[{}0]", "1234567890,".repeat(100_000));
    let mut command = Command::new(env!("CARGO_BIN_EXE_woodcrock"));
    command.arg("$.*").stdin(Stdio::piped()).stdout(Stdio::piped()).stderr(Stdio::piped());
    let mut process = command.spawn().expect("the command starts");
    drop(process.stdout.take());
    let mut stdin = process.stdin.take().expect("its input is a pipe");
    stdin.write_all(record.as_bytes()).expect("the record is read");
    drop(stdin);
    let output = process.wait_with_output().expect("the command ends");
    assert_eq!((output.status.code(), output.stderr), (Some(1), Vec::new()));
}
