//! What the program `picklist_cases` (`crates/picklist_cases`) has to print.
//!
//! As for `samples`: its file of cases a second time, and every text from the independent
//! implementation.

use crate::notation;
use oracle::picklist;

/// The cases.
pub const CASES: &str = include_str!("../../../crates/picklist_cases/stdin");

/// Where the output stands in the repository.
pub const OUTPUT: &str = "crates/picklist_cases/stdout";

/// The input of a line, if it has one.
fn input(line: &str) -> Result<Option<Vec<u8>>, String> {
    match notation::words(line) {
        ("input", text) => notation::bytes(text).map(Some),
        _ if line.is_empty() || line.starts_with('#') => Ok(None),
        _ => Err(format!("`{line}`: no word of a line")),
    }
}

/// The inputs of all cases, in order, or the first line that cannot be read.
pub fn inputs(file: &str) -> Result<Vec<Vec<u8>>, String> {
    file.lines().filter_map(|line| input(line).transpose()).collect()
}

/// The whole output for a file of cases, or the first line that cannot be read.
pub fn output(file: &str) -> Result<String, String> {
    let mut output = String::new();
    for line in file.lines() {
        output += &format!("{line}\n{}", input(line)?.map_or(String::new(), |input| block(&input)));
    }
    Ok(format!("{output}{} cases\n", inputs(file)?.len()))
}

/// What stands below an input: the text, the size of the text, and that nothing beyond it in the
/// buffer is changed.
fn block(input: &[u8]) -> String {
    let text = String::from_utf8(picklist(input)).expect("the text is ASCII");
    format!("{text}({} bytes, 0 changed beyond)\n", text.len())
}
