//! The command `woodcrock`: prints what a JSONPath query picks out of a JSON record, or how large its
//! pile can get.

use std::ffi::OsString;
use std::fs::File;
use std::io::{self, BufWriter, Read, Write};
use std::os::unix::ffi::{OsStrExt, OsStringExt};
use std::process::ExitCode;
use std::{env, fmt, str};
use woodcrock::{
    bound_pile, path_at, sort_block, Ground, Matches, Refusal, Walk, BLOCK, MAX_RECORD,
};

const USAGE: &str = include_str!("usage.txt");

/// Exit statuses; that of a refusal is its ground's number above the last.
const NOT_READ_OR_WRITTEN: u8 = 1;
const USED_WRONGLY: u8 = 2;
const REFUSED: u8 = 10;

/// What is printed of the nodes.
#[derive(Clone, Copy, PartialEq)]
enum Output {
    Values,
    Raw,
    Offsets,
    Count,
    Paths,
}

/// What is printed: something of the nodes, or the bound on the pile.
#[derive(Clone, Copy, PartialEq)]
enum Printed {
    Nodes(Output),
    Pile,
}

/// What the command line asks for.
enum Task {
    Help,
    List { walk: Walk, output: Output, query: Vec<u8>, file: Option<OsString> },
    Pile { query: Vec<u8> },
}

/// Why nothing, or not all, was printed.
enum Failure {
    Usage(String),
    Read(String, io::Error),
    Write(io::Error),
    Refused {
        refusal: Refusal,
        query: Vec<u8>,
        record: Vec<u8>,
    },
    /// So many values have no path; each was told.
    WithoutPath(usize),
}

impl Failure {
    fn status(&self) -> u8 {
        match self {
            Failure::Usage(_) => USED_WRONGLY,
            Failure::Read(..) | Failure::Write(_) => NOT_READ_OR_WRITTEN,
            Failure::Refused { refusal, .. } => REFUSED + refusal.ground.number() as u8,
            Failure::WithoutPath(_) => REFUSED + Ground::HalfInName.number() as u8,
        }
    }
}

impl fmt::Display for Failure {
    fn fmt(&self, out: &mut fmt::Formatter) -> fmt::Result {
        match self {
            Failure::Usage(fault) => write!(out, "{fault}; --help says how it is used"),
            Failure::Read(name, fault) => write!(out, "{name}: {fault}"),
            Failure::Write(fault) => write!(out, "standard output: {fault}"),
            Failure::Refused { refusal, query, .. } if refusal.ground.is_of_query() => {
                explain_query(out, *refusal, query)
            }
            Failure::Refused { refusal, record, .. } => explain_record(out, *refusal, record),
            Failure::WithoutPath(1) => write!(out, "1 value has no path"),
            Failure::WithoutPath(values) => write!(out, "{values} values have no path"),
        }
    }
}

/// How many characters of a query are shown on either side of the place of its refusal, at the most.
const SHOWN: usize = 60;

/// As many characters before a place and behind it as are shown, with `…` for those that are not.
fn around(before: &str, behind: &str) -> (String, String) {
    let left_out = before.chars().count().saturating_sub(SHOWN);
    let begun = if left_out > 0 { "…" } else { "" };
    let ended = if behind.chars().count() > SHOWN { "…" } else { "" };
    let before = begun.chars().chain(before.chars().skip(left_out)).collect();
    let behind = behind.chars().take(SHOWN).chain(ended.chars()).collect();
    (before, behind)
}

/// The refusal of a query, and below it what stands around the place, with a mark there, if it can be
/// shown.
fn explain_query(out: &mut fmt::Formatter, refusal: Refusal, query: &[u8]) -> fmt::Result {
    let Refusal { ground, place } = refusal;
    match ground {
        Ground::QueryTooLong => return write!(out, "{refusal}"),
        Ground::QueryMalformed if place == query.len() => write!(out, "the query is incomplete")?,
        _ => write!(out, "{refusal}")?,
    }
    let (Ok(before), Ok(behind)) =
        (str::from_utf8(&query[..place]), str::from_utf8(&query[place..]))
    else {
        return Ok(());
    };
    let (before, behind) = around(before, behind);
    if before.contains(char::is_control) || behind.contains(char::is_control) {
        return Ok(());
    }
    write!(out, "\n  {before}{behind}\n  {:1$}^", "", before.chars().count())
}

/// The refusal of a record, with the line and the column, in bytes, of its place.
fn explain_record(out: &mut fmt::Formatter, refusal: Refusal, record: &[u8]) -> fmt::Result {
    let Refusal { ground, place } = refusal;
    match ground {
        Ground::RecordMalformed if place == record.len() => {
            write!(out, "the record is incomplete: it ends at byte {place}")?
        }
        _ => write!(out, "{refusal}")?,
    }
    if ground == Ground::RecordTooLong {
        return Ok(());
    }
    let before = &record[..place];
    let line = 1 + before.iter().filter(|&&byte| byte == b'\n').count();
    let column = 1 + before.iter().rev().take_while(|&&byte| byte != b'\n').count();
    write!(out, " (line {line}, column {column})")
}

/// Why a value of the record, by its first byte, has no path.
struct NoPath<'a> {
    value: usize,
    refusal: Refusal,
    record: &'a [u8],
}

impl fmt::Display for NoPath<'_> {
    fn fmt(&self, out: &mut fmt::Formatter) -> fmt::Result {
        write!(out, "no path for the value at byte {}: ", self.value)?;
        explain_record(out, self.refusal, self.record)
    }
}

/// Reads the command line. Words after `--`, and the word `-`, are no options.
fn task(arguments: impl Iterator<Item = OsString>) -> Result<Task, Failure> {
    let (mut walk, mut options_over) = (Walk::Jumping, false);
    let mut printed = Printed::Nodes(Output::Values);
    let mut words = Vec::new();
    for argument in arguments {
        if options_over || !argument.as_bytes().starts_with(b"-") || argument == "-" {
            words.push(argument);
            continue;
        }
        match argument.to_str() {
            Some("--") => options_over = true,
            Some("--help") => return Ok(Task::Help),
            Some("--plain") => walk = Walk::Plain,
            Some("--raw") => printed = only(printed, Printed::Nodes(Output::Raw))?,
            Some("--offsets") => printed = only(printed, Printed::Nodes(Output::Offsets))?,
            Some("--count") => printed = only(printed, Printed::Nodes(Output::Count))?,
            Some("--paths") => printed = only(printed, Printed::Nodes(Output::Paths))?,
            Some("--pile") => printed = only(printed, Printed::Pile)?,
            _ => return Err(Failure::Usage(format!("no option {}", argument.display()))),
        }
    }
    let mut words = words.into_iter();
    let Some(query) = words.next() else {
        return Err(Failure::Usage("a query is missing".to_string()));
    };
    let query = query.into_vec();
    let task = match printed {
        Printed::Nodes(output) => {
            let file = words.next().filter(|name| name != "-");
            Task::List { walk, output, query, file }
        }
        Printed::Pile => Task::Pile { query },
    };
    match words.next() {
        Some(word) => Err(Failure::Usage(format!("a word too many: {}", word.display()))),
        None => Ok(task),
    }
}

/// What is asked for, if nothing was before.
fn only(before: Printed, asked: Printed) -> Result<Printed, Failure> {
    match before == Printed::Nodes(Output::Values) || before == asked {
        true => Ok(asked),
        false => {
            let options = "--raw, --offsets, --count, --paths and --pile";
            Err(Failure::Usage(format!("only one of {options}")))
        }
    }
}

/// Reads the record: up to one byte more than is taken, so that one that is too long is refused as
/// such.
fn read(file: Option<OsString>) -> Result<Vec<u8>, Failure> {
    let mut record = Vec::new();
    let limit = MAX_RECORD as u64 + 1;
    let (name, read) = match file {
        None => {
            let read = io::stdin().lock().take(limit).read_to_end(&mut record);
            ("standard input".to_string(), read)
        }
        Some(path) => {
            let read = File::open(&path).and_then(|file| file.take(limit).read_to_end(&mut record));
            (path.display().to_string(), read)
        }
    };
    match read {
        Ok(_) => Ok(record),
        Err(fault) => Err(Failure::Read(name, fault)),
    }
}

/// Prints what is asked for of the nodes, and gives back how many it had to leave out.
fn print(
    out: &mut impl Write,
    output: Output,
    record: &[u8],
    matches: &Matches,
) -> io::Result<usize> {
    let mut left_out = 0;
    match output {
        Output::Count => writeln!(out, "{}", matches.len())?,
        Output::Offsets => {
            for range in matches.ranges() {
                writeln!(out, "{} {}", range.start, range.end)?;
            }
        }
        Output::Raw => {
            for value in matches.values() {
                out.write_all(value)?;
                out.write_all(b"\n")?;
            }
        }
        Output::Values => {
            for value in matches.values() {
                print_on_one_line(out, value)?;
                out.write_all(b"\n")?;
            }
        }
        Output::Paths => left_out = print_paths(out, record, matches)?,
    }
    out.flush()?;
    Ok(left_out)
}

/// Prints the path of each node. One that has none is told, and the others go on; gives back how many
/// were told.
fn print_paths(out: &mut impl Write, record: &[u8], matches: &Matches) -> io::Result<usize> {
    let mut told = 0;
    for value in matches.ranges().map(|range| range.start) {
        match path_at(record, value) {
            Ok(path) => writeln!(out, "{path}")?,
            Err(refusal) => {
                told += 1;
                tell(&NoPath { value, refusal, record });
            }
        }
    }
    Ok(told)
}

/// Prints a value without its blanks outside strings; inside there are no line feeds.
fn print_on_one_line(out: &mut impl Write, value: &[u8]) -> io::Result<()> {
    let (mut inside, mut odd) = (false, false);
    for block in value.chunks(BLOCK) {
        let words = sort_block(block, inside, odd);
        (inside, odd) = (words.inside, words.odd);
        for (bit, byte) in block.iter().enumerate() {
            let in_string = words.strings >> bit & 1 == 1;
            if in_string || !b" \t\n\r".contains(byte) {
                out.write_all(&[*byte])?;
            }
        }
    }
    Ok(())
}

/// Prints the bound on the pile of a query.
fn print_bound(out: &mut impl Write, query: Vec<u8>) -> Result<(), Failure> {
    let written = match bound_pile(&query) {
        Ok(Some(frames)) => writeln!(out, "{frames}"),
        Ok(None) => writeln!(out, "none"),
        Err(refusal) => return Err(Failure::Refused { refusal, query, record: Vec::new() }),
    };
    written.and_then(|()| out.flush()).map_err(Failure::Write)
}

/// Does what the command line asks for.
fn run() -> Result<(), Failure> {
    let mut out = BufWriter::new(io::stdout().lock());
    let (walk, output, query, file) = match task(env::args_os().skip(1))? {
        Task::Help => {
            let written = out.write_all(USAGE.as_bytes()).and_then(|()| out.flush());
            return written.map_err(Failure::Write);
        }
        Task::Pile { query } => return print_bound(&mut out, query),
        Task::List { walk, output, query, file } => (walk, output, query, file),
    };
    let record = read(file)?;
    let matches = match walk.list(&query, &record) {
        Ok(matches) => matches,
        Err(refusal) => return Err(Failure::Refused { refusal, query, record }),
    };
    match print(&mut out, output, &record, &matches).map_err(Failure::Write)? {
        0 => Ok(()),
        left_out => Err(Failure::WithoutPath(left_out)),
    }
}

/// A message on standard error.
fn tell(message: &impl fmt::Display) {
    eprintln!("woodcrock: {message}");
}

fn main() -> ExitCode {
    let Err(failure) = run() else {
        return ExitCode::SUCCESS;
    };
    match &failure {
        // Who reads the output has seen enough.
        Failure::Write(fault) if fault.kind() == io::ErrorKind::BrokenPipe => {}
        _ => tell(&failure),
    }
    ExitCode::from(failure.status())
}
