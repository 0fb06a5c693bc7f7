//! What the programs that run a file of cases of the public calls (`samples` and `vectors`, by
//! `crates/call_cases`) have to print, and in `picklist` what the program `picklist_cases` has to.
//!
//! A file is read here a second time, by other code, and every number comes from the independent
//! implementation in `oracle`.

pub mod notation;
pub mod picklist;

use oracle::{
    bound_pile, find_value, list, read_value, sort_block, write_path, Answer, Bound, Value, Words,
    Written, BLOCK, NO_GROUND,
};

/// The cases of `samples`.
pub const CASES: &str = include_str!("../../../crates/samples/stdin");

/// Where its output stands in the repository.
pub const OUTPUT: &str = "crates/samples/stdout";

/// The cases of `pile_samples`.
pub const PILE_CASES: &str = include_str!("../../../crates/pile_samples/stdin");

/// Where its output stands in the repository.
pub const PILE_OUTPUT: &str = "crates/pile_samples/stdout";

/// What a list holds before a call, at each place.
const OLD: u32 = 7777;

/// The most numbers of a list.
const MAX_NUMBERS: usize = 64;

/// What a buffer holds before a call, at each place.
const OLD_BYTE: u8 = b'.';

/// What the lines of a file have set so far, and how many of them made calls. The numbers of a list
/// are also the bytes of a buffer.
#[derive(Default)]
struct State {
    record: Vec<u8>,
    numbers: usize,
    cases: usize,
}

/// The whole output for a file of cases, or the first line that cannot be read.
pub fn output(file: &str) -> Result<String, String> {
    let mut state = State::default();
    let mut output = String::new();
    for line in file.lines() {
        let answers = state.run(line).map_err(|fault| format!("`{line}`: {fault}"))?;
        output += &format!("{line}\n{answers}");
    }
    Ok(format!("{output}{} cases\n", state.cases))
}

/// Numbers with a space before each.
fn spaced(numbers: impl IntoIterator<Item = u64>) -> String {
    numbers.into_iter().map(|number| format!(" {number}")).collect()
}

/// The lines below a query: both walks have the same answers.
pub fn walks(answer: &Answer, list: &[u32]) -> String {
    let Answer { ground, place, pairs, peak } = *answer;
    let four = spaced([ground, place, pairs, peak].map(u64::from));
    let end = list.iter().rposition(|&number| number != OLD).map_or(0, |last| last + 1);
    let left = spaced(list[..end].iter().copied().map(u64::from));
    let walk = format!("{four} list{left} rest {}\n", list.len() - end);
    format!("  plain{walk}  jumping{walk}")
}

/// The same for a list of so many numbers, of which the first are these.
pub fn walks_with(answer: &Answer, numbers: impl IntoIterator<Item = u32>, size: usize) -> String {
    let mut list: Vec<u32> = numbers.into_iter().collect();
    list.resize(size, OLD);
    walks(answer, &list)
}

/// The line below a node: the three answers of the writer of paths, and the buffer as it leaves it.
fn path_line(answer: &Written, buffer: &[u8]) -> String {
    let Written { ground, place, length } = *answer;
    let three = spaced([u64::from(ground), place as u64, length as u64]);
    let end = buffer.iter().rposition(|&byte| byte != OLD_BYTE).map_or(0, |last| last + 1);
    let left = String::from_utf8_lossy(&buffer[..end]);
    format!("  path{three} `{left}` rest {}\n", buffer.len() - end)
}

/// The same where this path was written into a buffer of so many bytes.
pub fn path_with(path: &str, size: usize) -> String {
    let mut buffer = path.as_bytes().to_vec();
    buffer.resize(size, OLD_BYTE);
    path_line(&Written { ground: NO_GROUND, place: 0, length: path.len() }, &buffer)
}

/// The line below a query that is asked how large its pile gets: the four answers.
fn frames(answer: &Bound) -> String {
    let Bound { ground, place, bounded, frames } = *answer;
    let four = [u64::from(ground), place as u64, u64::from(bounded), u64::from(frames)];
    format!("  frames{}\n", spaced(four))
}

fn number(text: &str) -> Result<usize, String> {
    text.parse().map_err(|_| "no number".to_string())
}

impl State {
    /// What stands below a line.
    fn run(&mut self, line: &str) -> Result<String, String> {
        let (word, text) = notation::words(line);
        match word {
            _ if line.is_empty() || line.starts_with('#') => return Ok(String::new()),
            "list" => {
                self.numbers = number(text)?;
                return match self.numbers {
                    0..=MAX_NUMBERS => Ok(String::new()),
                    _ => Err("too long".to_string()),
                };
            }
            "record" => {
                self.record = notation::bytes(text)?;
                return Ok(String::new());
            }
            _ => self.cases += 1,
        }
        match word {
            "query" => Ok(self.listers(&notation::bytes(text)?)),
            "value" => Ok(self.value(number(text)?)),
            "path" => Ok(self.path(number(text)?)),
            "frames" => Ok(frames(&bound_pile(&notation::bytes(text)?))),
            "blocks" => Ok(self.blocks()),
            _ => Err("no word of a line".to_string()),
        }
    }

    fn listers(&self, query: &[u8]) -> String {
        let mut lent = vec![OLD; self.numbers];
        let answer = list(query, &self.record, &mut lent);
        walks(&answer, &lent)
    }

    /// The value finder and the value reader.
    fn value(&self, offset: usize) -> String {
        let Value { ground, place, end } = find_value(&self.record, offset);
        let three = spaced([u64::from(ground), place as u64, end as u64]);
        let read = String::from_utf8_lossy(read_value(&self.record, offset));
        format!("  finder{three}\n  reader `{read}`\n")
    }

    /// The writer of paths.
    fn path(&self, offset: usize) -> String {
        let mut buffer = vec![OLD_BYTE; self.numbers];
        path_line(&write_path(&self.record, offset, &mut buffer), &buffer)
    }

    /// The block sorter, on all blocks of the record.
    fn blocks(&self) -> String {
        let (mut inside, mut odd) = (false, false);
        let mut lines = String::new();
        for at in (0..self.record.len()).step_by(BLOCK) {
            let words = sort_block(&self.record[at..], inside, odd);
            (inside, odd) = (words.inside, words.odd);
            let Words { quotes, strings, opening, closing, .. } = words;
            lines +=
                &format!("  sorter {quotes:016x} {strings:016x} {opening:016x} {closing:016x}");
            lines += &format!("{}\n", spaced([inside, odd].map(u64::from)));
        }
        lines
    }
}
