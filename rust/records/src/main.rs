//! Writes the five records that measurements are made on: `records FOLDER [BYTES]`.

use records::large::{ALL, LARGE};
use std::{env, fs, path::Path, process::ExitCode};

fn main() -> ExitCode {
    let arguments: Vec<String> = env::args().skip(1).collect();
    let size = match arguments.get(1) {
        Some(bytes) => bytes.parse().ok(),
        None => Some(LARGE),
    };
    let (Some(folder), Some(size), true) = (arguments.first(), size, arguments.len() <= 2) else {
        eprintln!("usage: records FOLDER [BYTES]");
        return ExitCode::from(2);
    };
    for (name, generator) in ALL {
        let record = generator(size);
        let path = Path::new(folder).join(format!("{name}.json"));
        if let Err(fault) = fs::write(&path, &record) {
            eprintln!("{}: {fault}", path.display());
            return ExitCode::FAILURE;
        }
        println!("{} {} bytes", path.display(), record.len());
    }
    ExitCode::SUCCESS
}
