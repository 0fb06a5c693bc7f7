//! Compares the linked calls with the independent implementation.
//!
//! `differential [--seed N] [--cases N] [--seconds N] [--stack BYTES]` runs everything once with so
//! many random cases, and goes on with further seeds until the seconds are over.
//! `differential --measure-stack` prints the smallest stack on which each call does at 512 levels.
//! `differential --picklist PROGRAM [--seed N] [--cases N]` compares a program `picklist`, each input
//! in a process of its own, and prints how many inputs there were.

use differential::{
    blocks, deep, frames, long, picklist, piles, random, samples, short, steps, Comparison,
    DeepCall, Linked, Mismatch, DEEP_CALLS, SMALL_STACK,
};
use std::path::{Path, PathBuf};
use std::process::{Command, ExitCode, Stdio};
use std::time::{Duration, Instant};
use std::{env, str::FromStr};

/// Random cases of one run, if the command line does not say: for the calls, and for a program.
const CASES: u64 = 100_000;
const PROGRAM_CASES: u64 = 5_000;

struct Options {
    seed: u64,
    cases: Option<u64>,
    time: Duration,
    stack: usize,
    measure: bool,
    program: Option<PathBuf>,
    /// Only this call, on the stack given.
    only: Option<DeepCall>,
}

fn options() -> Option<Options> {
    let mut options = Options {
        seed: 1,
        cases: None,
        time: Duration::ZERO,
        stack: SMALL_STACK,
        measure: false,
        program: None,
        only: None,
    };
    let mut arguments = env::args().skip(1);
    while let Some(argument) = arguments.next() {
        match argument.as_str() {
            "--seed" => options.seed = number(arguments.next())?,
            "--cases" => options.cases = Some(number(arguments.next())?),
            "--seconds" => options.time = Duration::from_secs(number(arguments.next())?),
            "--stack" => options.stack = number(arguments.next())?,
            "--measure-stack" => options.measure = true,
            "--picklist" => options.program = Some(arguments.next()?.into()),
            "--only" => {
                let name = arguments.next()?;
                options.only = Some(DEEP_CALLS.iter().find(|(known, _)| *known == name)?.1);
            }
            _ => return None,
        }
    }
    Some(options)
}

fn number<T: FromStr>(argument: Option<String>) -> Option<T> {
    argument?.parse().ok()
}

/// Everything once, then random cases and blocks from further seeds until the time is over.
fn run(options: &Options) -> Result<(), Mismatch> {
    let began = Instant::now();
    let cases = options.cases.unwrap_or(CASES);
    let mut comparison = Comparison::new(&Linked);
    for (_, call) in DEEP_CALLS {
        deep(&Linked, call, options.stack)?;
    }
    samples(&mut comparison)?;
    short(&mut comparison)?;
    long(&mut comparison)?;
    frames(&mut comparison)?;
    piles(&mut comparison)?;
    steps(&mut comparison)?;
    for seed in options.seed.. {
        random(&mut comparison, seed, cases)?;
        blocks(&mut comparison, seed, cases)?;
        println!("seed {seed}: all equal so far\n{}", comparison.counts);
        if began.elapsed() >= options.time {
            break;
        }
    }
    Ok(())
}

/// The program on its cases, and on random ones.
fn run_program(program: &Path, options: &Options) -> Result<(), Mismatch> {
    let inputs = picklist(program, options.seed, options.cases.unwrap_or(PROGRAM_CASES))?;
    println!("{}: all equal\n{inputs}", program.display());
    Ok(())
}

/// Whether a call does on a stack of so many bytes, tried in a process of its own.
fn does_on(name: &str, stack: usize) -> bool {
    let program = env::current_exe().expect("the program has a path");
    let mut command = Command::new(program);
    command.args(["--only", name, "--stack", &stack.to_string()]);
    command.stdout(Stdio::null()).stderr(Stdio::null());
    command.status().is_ok_and(|status| status.success())
}

/// The unit in which stacks are measured, and the smallest that a thread can have.
const STEP: usize = 4 * 1_024;
const SMALLEST: usize = 16 * 1_024;

/// Prints the smallest stack for each call, by halving.
fn measure() {
    for (name, _) in DEEP_CALLS {
        let (mut low, mut high) = (0, 4_096);
        while low < high {
            let middle = (low + high) / 2;
            match does_on(name, SMALLEST + middle * STEP) {
                true => high = middle,
                false => low = middle + 1,
            }
        }
        println!("{name}: a thread with {} bytes", SMALLEST + low * STEP);
    }
}

fn main() -> ExitCode {
    let Some(options) = options() else {
        eprintln!("usage: differential [--seed N] [--cases N] [--seconds N] [--stack BYTES]");
        eprintln!("       differential --measure-stack");
        eprintln!("       differential --picklist PROGRAM [--seed N] [--cases N]");
        return ExitCode::from(2);
    };
    let result = match (options.only, &options.program) {
        (Some(call), _) => deep(&Linked, call, options.stack),
        (_, Some(program)) => run_program(program, &options),
        _ if options.measure => {
            measure();
            Ok(())
        }
        _ => run(&options),
    };
    match result {
        Ok(()) => ExitCode::SUCCESS,
        Err(mismatch) => {
            eprintln!("{mismatch}");
            ExitCode::FAILURE
        }
    }
}
