//! Makes the vectors' files from the suite: `vectors` writes them, `vectors --check` compares them
//! with those that stand in the repository.

use std::path::{Path, PathBuf};
use std::{env, fs, process::ExitCode};
use vectors::{files, File, SUITE};

/// The top folder of the repository.
fn top() -> PathBuf {
    Path::new(env!("CARGO_MANIFEST_DIR")).join("../..")
}

fn write(file: &File) -> Result<(), String> {
    fs::write(top().join(file.path), &file.contents)
        .map_err(|fault| format!("{}: {fault}", file.path))
}

fn check(file: &File) -> Result<(), String> {
    let standing = fs::read(top().join(file.path));
    let standing = standing.map_err(|fault| format!("{}: {fault}", file.path))?;
    match standing == file.contents.as_bytes() {
        true => Ok(()),
        false => Err(format!("{}: not what the suite gives", file.path)),
    }
}

fn run(act: fn(&File) -> Result<(), String>) -> Result<(), String> {
    let suite = fs::read(top().join(SUITE)).map_err(|fault| format!("{SUITE}: {fault}"))?;
    files(&suite)?.iter().try_for_each(act)
}

fn main() -> ExitCode {
    let arguments: Vec<String> = env::args().skip(1).collect();
    let act = match arguments.iter().map(String::as_str).collect::<Vec<_>>()[..] {
        [] => write,
        ["--check"] => check,
        _ => {
            eprintln!("usage: vectors [--check]");
            return ExitCode::from(2);
        }
    };
    match run(act) {
        Ok(()) => ExitCode::SUCCESS,
        Err(fault) => {
            eprintln!("{fault}");
            ExitCode::FAILURE
        }
    }
}

#[cfg(test)]
mod tests {
    #[test]
    fn the_files_of_the_repository_are_what_the_suite_gives() {
        assert_eq!(super::run(super::check), Ok(()));
    }
}
