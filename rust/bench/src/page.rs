//! The page of the results, docs/BENCHMARK.md.

use crate::engines::output;
use crate::jobs::Job;
use crate::{Found, Measured, Results};
use records::large;
use std::collections::BTreeSet;
use std::process::Command;
use std::{fs, thread};

/// The text around the tables; a line of a name in braces is the place of a table.
const TEXT: &str = include_str!("page.md");

pub fn page(results: &Results) -> String {
    let parts = [
        ("{machine}", machine(results)),
        ("{engines}", engines(results)),
        ("{left out}", left_out(results)),
        ("{summary}", summary(results)),
        ("{records}", records(results)),
        ("{walks}", walks(results)),
        ("{checks}", checks(results)),
        ("{short}", times(&results.short.iter().collect::<Vec<_>>(), results, MICRO)),
        ("{stack}", stack(results)),
    ];
    let filled = |text: String, (name, part): &(&str, String)| text.replace(name, part.trim_end());
    parts.iter().fold(TEXT.to_string(), filled)
}

/// A table with its first line and the others; numbers stand to the right.
fn table(head: &[String], rows: &[Vec<String>]) -> String {
    let line = |cells: &[String]| format!("| {} |\n", cells.join(" | "));
    let rule = format!("|---|{}\n", "---:|".repeat(head.len() - 1));
    line(head) + &rule + &rows.iter().map(|row| line(row)).collect::<String>()
}

fn strings<const N: usize>(cells: [&str; N]) -> Vec<String> {
    cells.map(str::to_string).to_vec()
}

/// Nanoseconds to a unit of the tables.
const MILLI: f64 = 1e6;
const MICRO: f64 = 1e3;

/// A number with about three figures.
fn figures(number: f64) -> String {
    match number {
        number if number < 10.0 => format!("{number:.2}"),
        number if number < 100.0 => format!("{number:.1}"),
        _ => format!("{number:.0}"),
    }
}

/// A number with a comma before each three digits.
fn grouped(number: usize) -> String {
    let digits = number.to_string();
    let groups = digits.as_bytes().rchunks(3).rev();
    groups.map(|group| String::from_utf8_lossy(group)).collect::<Vec<_>>().join(",")
}

fn machine(results: &Results) -> String {
    let info = fs::read_to_string("/proc/cpuinfo").unwrap_or_default();
    let model = info.lines().find(|line| line.starts_with("model name"));
    let model = model.and_then(|line| line.split(": ").nth(1)).unwrap_or("a processor");
    let cores = thread::available_parallelism().map_or(1, usize::from);
    let version = |name: &str| {
        let printed = output(Command::new(name).arg("--version")).unwrap_or_default();
        printed.lines().next().unwrap_or(name).to_string()
    };
    format!(
        "{model}, {cores} cores, Linux on x86-64. Compilers: {}; {}. Best of {} rounds.",
        version("c++"),
        version("rustc"),
        results.rounds
    )
}

fn engines(results: &Results) -> String {
    let head = strings(["engine", "version", "what it does, and less or more than the library"]);
    let row = |engine: &crate::Engine| {
        vec![engine.name.to_string(), engine.version.clone(), engine.differs.to_string()]
    };
    let text = table(&head, &results.engines.iter().map(row).collect::<Vec<_>>());
    text.replace("|---|---:|---:|", "|---|---|---|")
}

/// The engines that could not be built, and those that could not do a job.
fn left_out(results: &Results) -> String {
    let mut lines: BTreeSet<String> = BTreeSet::new();
    for (name, reason) in &results.left_out {
        lines.insert(format!("- {name} is left out: {reason}\n"));
    }
    for measured in &results.large {
        for (engine, time) in results.engines.iter().zip(&measured.times) {
            if let Err(reason) = time {
                let record = measured.job.record;
                lines.insert(format!("- {} gives no answer on {record}: {reason}\n", engine.name));
            }
        }
    }
    match lines.is_empty() {
        true => "Every engine answered every query.\n".to_string(),
        false => lines.into_iter().collect(),
    }
}

/// How many times as long as the jumping walk, which is the first engine, an engine takes.
fn ratio(measured: &Measured, engine: usize) -> Option<f64> {
    let jumping = measured.times[0].as_ref().ok()?;
    measured.times[engine].as_ref().ok().map(|time| time / jumping)
}

/// The least and the greatest ratio of each engine on each record.
fn summary(results: &Results) -> String {
    let names = large::ALL.map(|(name, _)| name);
    let mut head = vec!["engine".to_string()];
    head.extend(names.map(str::to_string));
    let mut rows = Vec::new();
    for (at, engine) in results.engines.iter().enumerate().skip(1) {
        let mut row = vec![engine.name.to_string()];
        for name in names {
            let of_record = results.large.iter().filter(|measured| measured.job.record == name);
            let ratios: Vec<f64> = of_record.filter_map(|measured| ratio(measured, at)).collect();
            let least = ratios.iter().copied().reduce(f64::min);
            let greatest = ratios.iter().copied().reduce(f64::max);
            row.push(match least.zip(greatest) {
                Some((least, greatest)) => format!("{} to {}", figures(least), figures(greatest)),
                None => "–".to_string(),
            });
        }
        rows.push(row);
    }
    table(&head, &rows)
}

/// A table of times, a column for each job; ratios stand in brackets.
fn times(jobs: &[&Measured], results: &Results, unit: f64) -> String {
    let mut head = vec!["engine".to_string()];
    head.extend(jobs.iter().map(|measured| {
        let Job { kind, .. } = measured.job;
        format!("{kind} `{}`", measured.job.query())
    }));
    let mut nodes = vec!["nodes".to_string()];
    nodes.extend(jobs.iter().map(|measured| grouped(measured.nodes)));
    let mut rows = vec![nodes];
    for (at, engine) in results.engines.iter().enumerate() {
        let mut row = vec![engine.name.to_string()];
        row.extend(jobs.iter().map(|measured| match (&measured.times[at], ratio(measured, at)) {
            (Ok(time), _) if at == 0 => figures(time / unit),
            (Ok(time), Some(ratio)) => format!("{} ({})", figures(time / unit), figures(ratio)),
            _ => "–".to_string(),
        }));
        rows.push(row);
    }
    table(&head, &rows)
}

/// A table for each of the five records.
fn records(results: &Results) -> String {
    let mut text = String::new();
    for (name, _) in large::ALL {
        let of_record = results.large.iter().filter(|measured| measured.job.record == name);
        let jobs: Vec<&Measured> = of_record.collect();
        let bytes = jobs.first().map_or(0, |measured| measured.bytes);
        text += &format!("### {name}, {} bytes\n\n", grouped(bytes));
        text += &times(&jobs, results, MILLI);
        text.push('\n');
    }
    text
}

/// What of the time is the check, and what is left for each walk.
fn walks(results: &Results) -> String {
    let head = strings([
        "record and query",
        "dead",
        "check",
        "plain",
        "jumping",
        "plain / jumping",
        "plain walk",
        "jumping walk",
        "walks alone, plain / jumping",
    ]);
    let mut rows = Vec::new();
    for measured in &results.large {
        let (Ok(jumping), Ok(plain)) = (&measured.times[0], &measured.times[1]) else {
            continue;
        };
        let check = measured.check;
        let (jump, walk) = (jumping - check, plain - check);
        let alone = |time: f64| figures((time / MILLI).max(0.0));
        // A walk of less than a hundredth of the check is too short to be told from it.
        let ratio = match jump > check / 100.0 {
            true => figures((walk / jump).max(0.0)),
            false => "–".to_string(),
        };
        rows.push(vec![
            format!("{} `{}`", measured.job.record, measured.job.query()),
            format!("{:.0} %", measured.dead * 100.0),
            figures(check / MILLI),
            figures(plain / MILLI),
            figures(jumping / MILLI),
            figures(plain / jumping),
            alone(walk),
            alone(jump),
            ratio,
        ]);
    }
    table(&head, &rows)
}

/// The check, the value finder at the root and the writer of a path at the last node, and how the peers
/// compare with the check where a query asks for nothing else.
fn checks(results: &Results) -> String {
    let asks_nothing = |record: &str| {
        let mut of_record = results.large.iter().filter(|measured| measured.job.record == record);
        of_record.find(|measured| measured.job.steps.is_empty())
    };
    let mut head = vec!["engine".to_string()];
    head.extend(results.found.iter().map(|found| found.record.to_string()));
    let row = |name: &str, of: &dyn Fn(&Found) -> Option<String>| {
        let cells = results.found.iter().map(|found| of(found).unwrap_or("–".to_string()));
        [name.to_string()].into_iter().chain(cells).collect::<Vec<String>>()
    };
    let mut rows = vec![
        row("the check", &|found| {
            asks_nothing(found.record).map(|measured| figures(measured.check / MILLI))
        }),
        row("the value finder", &|found| Some(figures(found.time / MILLI))),
        row("the writer of a path", &|found| Some(figures(found.path / MILLI))),
    ];
    let engines = results.engines.iter().enumerate();
    for (at, engine) in engines.filter(|(_, engine)| !engine.is_library()) {
        rows.push(row(engine.name, &|found| {
            let measured = asks_nothing(found.record)?;
            let time = measured.times[at].as_ref().ok()?;
            Some(format!("{} ({})", figures(time / MILLI), figures(time / measured.check)))
        }));
    }
    table(&head, &rows)
}

/// The lines of the measurement of stacks, as a table.
fn stack(results: &Results) -> String {
    let row = |line: &str| {
        let (call, rest) = line.split_once(": ").unwrap_or((line, ""));
        let bytes: String = rest.chars().filter(char::is_ascii_digit).collect();
        vec![format!("`{call}`"), bytes.parse().map_or(bytes.clone(), grouped)]
    };
    let rows: Vec<Vec<String>> = results.stack.lines().map(row).collect();
    table(&strings(["call", "bytes"]), &rows)
}

#[cfg(test)]
mod tests {
    use super::*;

    #[test]
    fn numbers_as_text() {
        assert_eq!(
            [0.5, 9.994, 10.04, 99.9, 1234.5].map(figures),
            ["0.50", "9.99", "10.0", "99.9", "1234"]
        );
        assert_eq!(
            [0, 12, 123, 1_234, 15_000_000].map(grouped),
            ["0", "12", "123", "1,234", "15,000,000"]
        );
    }

    #[test]
    fn a_table() {
        let rows = [strings(["x", "1"]), strings(["y", "2"])];
        let text = table(&strings(["a", "b"]), &rows);
        assert_eq!(text, "| a | b |\n|---|---:|\n| x | 1 |\n| y | 2 |\n");
    }
}
