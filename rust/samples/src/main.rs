//! Makes what the programs `samples`, `pile_samples` and `picklist_cases` have to print: `samples` writes it,
//! `samples --check` compares it with what stands in the repository.

use std::path::{Path, PathBuf};
use std::{env, fs, process::ExitCode};

/// The files of the repository, and what each has to hold.
fn files() -> [(&'static str, Result<String, String>); 3] {
    [
        (samples::OUTPUT, samples::output(samples::CASES)),
        (samples::PILE_OUTPUT, samples::output(samples::PILE_CASES)),
        (samples::picklist::OUTPUT, samples::picklist::output(samples::picklist::CASES)),
    ]
}

/// A file of the repository.
fn place(file: &str) -> PathBuf {
    Path::new(env!("CARGO_MANIFEST_DIR")).join("../..").join(file)
}

fn write(file: &str, output: String) -> Result<(), String> {
    fs::write(place(file), output).map_err(|fault| format!("{file}: {fault}"))
}

fn check(file: &str, output: String) -> Result<(), String> {
    let standing = fs::read(place(file)).map_err(|fault| format!("{file}: {fault}"))?;
    match standing == output.as_bytes() {
        true => Ok(()),
        false => Err(format!("{file}: not what the independent implementation gives")),
    }
}

fn main() -> ExitCode {
    let arguments: Vec<String> = env::args().skip(1).collect();
    let job = match arguments.iter().map(String::as_str).collect::<Vec<_>>()[..] {
        [] => write,
        ["--check"] => check,
        _ => {
            eprintln!("usage: samples [--check]");
            return ExitCode::from(2);
        }
    };
    for (file, output) in files() {
        if let Err(fault) = output.and_then(|output| job(file, output)) {
            eprintln!("{fault}");
            return ExitCode::FAILURE;
        }
    }
    ExitCode::SUCCESS
}

#[cfg(test)]
mod tests {
    #[test]
    fn the_files_of_the_repository_are_what_the_independent_implementation_gives() {
        for (file, output) in super::files() {
            assert_eq!(super::check(file, output.unwrap()), Ok(()));
        }
    }
}
