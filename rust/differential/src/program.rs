//! Comparing a program `picklist`: each input goes to a process of its own.

use crate::compare::shown;
use crate::Mismatch;
use oracle::MAX_INPUT;
use records::{cases, Random};
use std::fmt;
use std::io::{self, Write};
use std::path::Path;
use std::process::{Command, Stdio};
use std::thread;

/// How many inputs were compared, by what was expected to be printed for them.
#[derive(Clone, Default, Debug, PartialEq, Eq)]
pub struct Inputs {
    pub by_ground: [u64; 9],
    pub too_long: u64,
}

impl fmt::Display for Inputs {
    fn fmt(&self, out: &mut fmt::Formatter) -> fmt::Result {
        write!(out, "inputs by ground 0 to 8: {:?}, too long: {}", self.by_ground, self.too_long)
    }
}

impl Inputs {
    fn count(&mut self, expected: &[u8]) {
        match expected {
            [b't', ..] => self.too_long += 1,
            [b'm', ..] => self.by_ground[0] += 1,
            refused => self.by_ground[usize::from(refused[REFUSED.len()] - b'0')] += 1,
        }
    }
}

/// What stands before the ground of a refusal.
const REFUSED: &str = "refused ";

/// Runs the program on the cases of `picklist_cases`, on a pair of other inputs, and on so many
/// random ones.
pub fn picklist(program: &Path, seed: u64, cases: u64) -> Result<Inputs, Mismatch> {
    let mut inputs = Inputs::default();
    for input in fixed_inputs() {
        inputs.count(&compare(program, &input)?);
    }
    let mut random = Random::new(seed);
    for _ in 0..cases {
        inputs.count(&compare(program, &random_input(&mut random))?);
    }
    Ok(inputs)
}

/// A query and a record, mostly with a line feed between them and none in the query.
fn random_input(random: &mut Random) -> Vec<u8> {
    let names = cases::names(random);
    let mut query = cases::query(random, names);
    if !random.once_in(8) {
        query.iter_mut().filter(|byte| **byte == b'\n').for_each(|byte| *byte = b' ');
    }
    let record = cases::record(random, names);
    let line_feed = if random.once_in(50) { &b""[..] } else { b"\n" };
    [&query, line_feed, &record].concat()
}

/// The cases, an input of which much is left unread, and bytes that are no UTF-8.
fn fixed_inputs() -> Vec<Vec<u8>> {
    let cases =
        samples::picklist::inputs(samples::picklist::CASES).expect("cases that can be read");
    cases.into_iter().chain([vec![b' '; 3 * MAX_INPUT], b"$\n\xFF".to_vec()]).collect()
}

/// Compares what the program prints for an input, and gives back what was expected.
fn compare(program: &Path, input: &[u8]) -> Result<Vec<u8>, Mismatch> {
    let expected = oracle::picklist(input);
    let found = output(program, input);
    if found.as_ref().is_ok_and(|found| *found == expected) {
        return Ok(expected);
    }
    Err(Mismatch {
        call: "picklist",
        lent: shown(input),
        expected: shown(&expected),
        found: found.map_or_else(|fault| fault.to_string(), |found| shown(&found)),
    })
}

/// What the program prints, where it ends without a fault. It may leave input unread that is too
/// long.
fn output(program: &Path, input: &[u8]) -> io::Result<Vec<u8>> {
    let mut command = Command::new(program);
    let mut process = command.stdin(Stdio::piped()).stdout(Stdio::piped()).spawn()?;
    let mut stdin = process.stdin.take().expect("its input is a pipe");
    thread::scope(|scope| {
        let writing = scope.spawn(move || stdin.write_all(input));
        let ended = process.wait_with_output()?;
        match writing.join().expect("the writing ends") {
            Err(fault) if fault.kind() != io::ErrorKind::BrokenPipe => Err(fault),
            _ if !ended.status.success() => Err(io::Error::other(ended.status.to_string())),
            _ => Ok(ended.stdout),
        }
    })
}
