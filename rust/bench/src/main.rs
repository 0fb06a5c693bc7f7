//! Measures the library beside other readers of JSON that do the same job, and writes
//! docs/BENCHMARK.md and docs/benchmark.svg: `bench [--size BYTES] [--rounds N] [--out FOLDER]`.

mod clock;
mod dead;
mod engines;
mod jobs;
mod page;
mod picture;

use clock::Effort;
use engines::Engine;
use jobs::{Job, JOBS, SHORT_JOBS};
use records::large;
use std::hint::black_box;
use std::path::{Path, PathBuf};
use std::process::{Command, ExitCode};
use std::{env, fs};
use woodcrock::{find_value, list, write_path, Ground, Walk};

/// How long one engine is measured on one job in one round.
const EFFORT: Effort = Effort { milliseconds: 200, batch: 1 };
/// The same on the record of 1 KB.
const SHORT_EFFORT: Effort = Effort { milliseconds: 30, batch: 200 };
const SHORT: usize = 1_000;
const ROUNDS: u32 = 12;
/// An engine that takes longer for a job than this, in nanoseconds, is measured in every fourth round.
const LONG: f64 = 1e8;

struct Options {
    size: usize,
    rounds: u32,
    out: PathBuf,
}

/// What was measured of one job: the nodes, and for each engine the best time or why there is none.
pub struct Measured {
    pub job: &'static Job,
    pub bytes: usize,
    pub nodes: usize,
    pub times: Vec<Result<f64, String>>,
    /// The check alone: the record with one byte too many is refused at its last byte.
    pub check: f64,
    /// The share of the record that lies in dead containers.
    pub dead: f64,
}

/// The value finder at the root of a record, and the writer of a path at its last node.
pub struct Found {
    pub record: &'static str,
    pub time: f64,
    pub path: f64,
}

/// All that is written down.
pub struct Results {
    pub engines: Vec<Engine>,
    pub left_out: Vec<(&'static str, String)>,
    pub large: Vec<Measured>,
    pub short: Vec<Measured>,
    pub found: Vec<Found>,
    /// The smallest stack of each call, as the comparison prints it.
    pub stack: String,
    pub rounds: u32,
}

/// A record, also as a file for the peers.
struct Record {
    name: &'static str,
    bytes: Vec<u8>,
    file: PathBuf,
}

fn options() -> Option<Options> {
    let top = Path::new(env!("CARGO_MANIFEST_DIR")).ancestors().nth(2)?;
    let mut options = Options { size: large::LARGE, rounds: ROUNDS, out: top.join("docs") };
    let mut arguments = env::args().skip(1);
    while let Some(argument) = arguments.next() {
        match argument.as_str() {
            "--size" => options.size = arguments.next()?.parse().ok()?,
            "--rounds" => options.rounds = arguments.next()?.parse().ok()?,
            "--out" => options.out = arguments.next()?.into(),
            _ => return None,
        }
    }
    Some(options)
}

/// Makes the five records and the one of 1 KB.
fn records(size: usize, folder: &Path) -> Result<Vec<Record>, String> {
    let short: (&str, large::Generator) = ("short", large::feed);
    let mut records = Vec::new();
    for (name, generator) in large::ALL.into_iter().chain([short]) {
        let bytes = generator(if name == "short" { SHORT } else { size });
        let file = folder.join(format!("{name}.json"));
        fs::write(&file, &bytes).map_err(|fault| format!("{}: {fault}", file.display()))?;
        records.push(Record { name, bytes, file });
    }
    Ok(records)
}

/// One round of one job on every engine that has not failed on it; each keeps its best time. In every
/// fourth round, the first one too, those that take long have their turn.
fn round(
    number: u32,
    measured: &mut Measured,
    engines: &[Engine],
    record: &Record,
    effort: Effort,
    list: &mut [u32],
) -> Result<(), String> {
    for (engine, time) in engines.iter().zip(&mut measured.times) {
        let Ok(best) = time else { continue };
        if *best > LONG && number % 4 != 0 {
            continue;
        }
        match engine.count(measured.job, &record.bytes, &record.file, effort, list) {
            Err(reason) if engine.is_library() => return Err(reason),
            Err(reason) => *time = Err(reason),
            Ok(count) if engine.is_library() && best.is_infinite() => {
                measured.nodes = count.nodes;
                *best = count.nanoseconds;
            }
            Ok(count) if count.nodes != measured.nodes => {
                let (name, query) = (engine.name, measured.job.query());
                let (found, wanted) = (count.nodes, measured.nodes);
                return Err(format!("{name} counts {found} nodes for {query}, not {wanted}"));
            }
            Ok(count) => *best = best.min(count.nanoseconds),
        }
    }
    Ok(())
}

/// Measures all jobs, the engines and the check in turn; with a query that asks for the root alone also
/// the value finder and the writer of a path.
fn measure(
    jobs: &'static [Job],
    engines: &[Engine],
    records: &[Record],
    effort: Effort,
    rounds: u32,
) -> Result<(Vec<Measured>, Vec<Found>), String> {
    let (mut all, mut found) = (Vec::new(), Vec::new());
    for job in jobs {
        let record = records.iter().find(|record| record.name == job.record);
        let record = record.expect("each job names a record");
        let times = engines.iter().map(|_| Ok(f64::INFINITY)).collect();
        let (bytes, check) = (record.bytes.len(), f64::INFINITY);
        let dead = dead::share(job.query().as_bytes(), &record.bytes)?;
        let mut measured = Measured { job, bytes, nodes: 0, times, check, dead };
        let mut list = vec![0; bytes + 1];
        let longer = refused_at_its_end(record)?;
        let mut root = Found { record: record.name, time: f64::INFINITY, path: f64::INFINITY };
        let last = if job.steps.is_empty() { last_node(record)? } else { 0 };
        let mut buffer = [0; PATH];
        for number in 0..rounds {
            round(number, &mut measured, engines, record, effort, &mut list)?;
            measured.check = measured.check.min(clock::best(effort, || {
                let _ = black_box(Walk::Jumping.list_into(b"$", &longer, &mut []));
            }));
            if job.steps.is_empty() {
                root.time = root.time.min(clock::best(effort, || {
                    let _ = black_box(find_value(&record.bytes, 0));
                }));
                root.path = root.path.min(clock::best(effort, || {
                    let _ = black_box(write_path(&record.bytes, last, &mut buffer));
                }));
            }
        }
        if job.steps.is_empty() {
            found.push(root);
        }
        eprintln!("{} {}: {} nodes", job.record, job.query(), measured.nodes);
        all.push(measured);
    }
    Ok((all, found))
}

/// The room for a path, which that of a last node has to fit.
const PATH: usize = 4_096;

/// The first byte of the last node of a record, whose path can be written.
fn last_node(record: &Record) -> Result<usize, String> {
    let matches = list(b"$..*", &record.bytes).map_err(|refusal| refusal.to_string())?;
    let last = matches.ranges().next_back().map_or(0, |range| range.start);
    match write_path(&record.bytes, last, &mut [0; PATH]) {
        Ok(_) => Ok(last),
        Err(refusal) => Err(format!("{}: {refusal}", record.name)),
    }
}

/// The record with one byte too many at its end, which the library has to refuse there, after it has
/// checked all the others.
fn refused_at_its_end(record: &Record) -> Result<Vec<u8>, String> {
    let longer = [record.bytes.as_slice(), b"!"].concat();
    let refusal = Walk::Jumping.list_into(b"$", &longer, &mut []);
    let at_its_end = (Ground::RecordMalformed, record.bytes.len());
    match refusal.map_err(|refusal| (refusal.ground, refusal.place)) {
        Err(refusal) if refusal == at_its_end => Ok(longer),
        _ => Err(format!("{} with a byte too many is not refused at its end", record.name)),
    }
}

/// What the comparison prints of the stack of each call at 512 levels.
fn stack() -> Result<String, String> {
    let mut command = Command::new(env::var_os("CARGO").unwrap_or("cargo".into()));
    command.current_dir(env!("CARGO_MANIFEST_DIR"));
    command.args(["run", "--quiet", "--release", "--offline", "--package", "differential", "--"]);
    engines::output(command.arg("--measure-stack"))
}

fn run(options: &Options) -> Result<(), String> {
    let program = env::current_exe().map_err(|fault| fault.to_string())?;
    let folder = program.with_file_name("bench-files");
    fs::create_dir_all(&folder).map_err(|fault| fault.to_string())?;
    let (mut engines, mut left_out) = (Vec::new(), Vec::new());
    for found in engines::all(&folder) {
        match found {
            Ok(engine) => engines.push(engine),
            Err((name, reason)) => {
                eprintln!("{name} is left out: {reason}");
                left_out.push((name, reason));
            }
        }
    }
    let records = records(options.size, &folder)?;
    let rounds = options.rounds;
    let (large, found) = measure(&JOBS, &engines, &records, EFFORT, rounds)?;
    let (short, _) = measure(&SHORT_JOBS, &engines, &records, SHORT_EFFORT, rounds)?;
    let stack = stack()?;
    let results = Results { engines, left_out, large, short, found, stack, rounds };
    for (name, text) in
        [("BENCHMARK.md", page::page(&results)), ("benchmark.svg", picture::picture(&results))]
    {
        let path = options.out.join(name);
        fs::write(&path, text).map_err(|fault| format!("{}: {fault}", path.display()))?;
    }
    Ok(())
}

fn main() -> ExitCode {
    let Some(options) = options() else {
        eprintln!("usage: bench [--size BYTES] [--rounds N] [--out FOLDER]");
        return ExitCode::from(2);
    };
    match run(&options) {
        Ok(()) => ExitCode::SUCCESS,
        Err(fault) => {
            eprintln!("{fault}");
            ExitCode::FAILURE
        }
    }
}
