//! Who is measured: the two walks of the library, and peers as programs of their own.

use crate::clock::{self, Effort};
use crate::jobs::Job;
use std::env;
use std::path::{Path, PathBuf};
use std::process::Command;
use woodcrock::{Listed, Walk};

/// The nodes that were counted and the nanoseconds that it took.
pub struct Count {
    pub nodes: usize,
    pub nanoseconds: f64,
}

/// How an engine is run.
enum Way {
    Library(Walk),
    /// A program with the command line of common.hpp, after these words.
    Program(Vec<PathBuf>),
    /// The command jq, a process for each call.
    Jq,
}

pub struct Engine {
    pub name: &'static str,
    /// Its version, and how it is built.
    pub version: String,
    /// What it does less or more than the library.
    pub differs: &'static str,
    way: Way,
}

impl Engine {
    /// Whether it is the library.
    pub fn is_library(&self) -> bool {
        matches!(self.way, Way::Library(_))
    }

    /// Counts the nodes of a job; `list` is room for the library's list. An error is the reason why
    /// the engine cannot do the job.
    pub fn count(
        &self,
        job: &Job,
        record: &[u8],
        file: &Path,
        effort: Effort,
        list: &mut [u32],
    ) -> Result<Count, String> {
        match &self.way {
            Way::Library(walk) => {
                let query = job.query();
                let mut answer = Ok(Listed { pairs: 0, peak: 0 });
                let call = || answer = walk.list_into(query.as_bytes(), record, list);
                let nanoseconds = clock::best(effort, call);
                let listed = answer.map_err(|refusal| refusal.to_string())?;
                Ok(Count { nodes: listed.pairs, nanoseconds })
            }
            Way::Program(words) => {
                let mut command = Command::new(&words[0]);
                command.args(&words[1..]).arg(file);
                command.args([effort.milliseconds.to_string(), effort.batch.to_string()]);
                let printed = output(command.args(job.steps))?;
                let mut numbers = printed.split_whitespace();
                let mut number = || numbers.next()?.parse().ok();
                let counted = number().zip(number());
                let (nodes, nanoseconds) = counted.ok_or("it prints something else")?;
                Ok(Count { nodes: nodes as usize, nanoseconds })
            }
            Way::Jq if effort.batch > 1 => Err("a process for each call".to_string()),
            Way::Jq => {
                let program = format!("reduce ({}) as $node (0; . + 1)", job.jq);
                let began = clock::of_children();
                let printed = output(Command::new("jq").arg(program).arg(file))?;
                let nanoseconds = clock::of_children() - began;
                let nodes = printed.trim().parse().map_err(|_| "it prints something else")?;
                Ok(Count { nodes, nanoseconds })
            }
        }
    }
}

/// What a command prints, or the first line of its complaint that names an error, or the last one.
pub fn output(command: &mut Command) -> Result<String, String> {
    let output = command
        .output()
        .map_err(|fault| format!("{}: {fault}", Path::new(command.get_program()).display()))?;
    if output.status.success() {
        return Ok(String::from_utf8_lossy(&output.stdout).into_owned());
    }
    let complaint = String::from_utf8_lossy(&output.stderr).into_owned();
    let last = complaint.lines().rfind(|line| !line.trim().is_empty());
    let line = complaint.lines().find(|line| line.contains("error")).or(last);
    Err(line.map_or_else(|| output.status.to_string(), str::to_string))
}

/// The first line that a command prints.
fn first_line(program: &str, argument: &str) -> Result<String, String> {
    let printed = output(Command::new(program).arg(argument))?;
    Ok(printed.lines().next().unwrap_or("").to_string())
}

/// The version of a Debian package.
fn package(name: &str) -> Result<String, String> {
    let mut command = Command::new("dpkg-query");
    let version = output(command.args(["--show", "--showformat", "${Version}", name]))?;
    Ok(format!("Debian's {name} {version}"))
}

fn peers() -> PathBuf {
    Path::new(env!("CARGO_MANIFEST_DIR")).join("peers")
}

const COMPILED: [&str; 4] = ["-std=c++17", "-O3", "-march=native", "-DRAPIDJSON_SSE42"];

/// Compiles a peer in C++.
fn compiled(name: &str, libraries: &[&str], folder: &Path) -> Result<Way, String> {
    let program = folder.join(name);
    let mut command = Command::new("c++");
    command.args(COMPILED).arg(peers().join(format!("{name}.cpp"))).args(libraries);
    output(command.arg("-o").arg(&program))?;
    Ok(Way::Program(vec![program]))
}

/// Where Debian's packages install the sources of Rust crates.
const DEBIAN_CRATES: &str = "/usr/share/cargo/registry";

/// Builds the peer on serde_json from the sources of Debian's package.
fn serde(folder: &Path) -> Result<Way, String> {
    let mut command = Command::new(env::var_os("CARGO").unwrap_or("cargo".into()));
    command.current_dir(peers().join("serde"));
    command.args(["build", "--quiet", "--release", "--offline", "--target-dir"]).arg(folder);
    let debian = format!("source.debian.directory=\"{DEBIAN_CRATES}\"");
    command.args(["--config", "source.crates-io.replace-with=\"debian\"", "--config", &debian]);
    command.args(["--config", "build.rustflags=[\"-C\", \"target-cpu=native\"]"]);
    output(&mut command)?;
    Ok(Way::Program(vec![folder.join("release/serde-peer")]))
}

/// A peer, or its name and why it is left out.
type Found = Result<Engine, (&'static str, String)>;

fn found(
    name: &'static str,
    version: Result<String, String>,
    way: impl FnOnce() -> Result<Way, String>,
    differs: &'static str,
) -> Found {
    match version.and_then(|version| Ok((version, way()?))) {
        Ok((version, way)) => Ok(Engine { name, version, differs, way }),
        Err(reason) => Err((name, reason)),
    }
}

/// All engines, the library first. Programs are put into the folder.
pub fn all(folder: &Path) -> Vec<Found> {
    let library = |name, walk, differs| {
        let version = "this repository, from Rust".to_string();
        Ok(Engine { name, version, differs, way: Way::Library(walk) })
    };
    let script = |program: &str, name: &str| {
        Ok(Way::Program(vec![PathBuf::from(program), peers().join(name)]))
    };
    vec![
        library(
            "Woodcrock, jumping",
            Walk::Jumping,
            "checks the whole record, then writes the first byte and the end of each node",
        ),
        library("Woodcrock, plain", Walk::Plain, "the same"),
        found(
            "RapidJSON",
            package("rapidjson-dev"),
            || compiled("rapidjson", &[], folder),
            "SAX reader with encoding validation; more: decodes strings, converts numbers; less: \
             only counts",
        ),
        found(
            "simdjson, tree",
            package("libsimdjson-dev"),
            || compiled("simdjson_dom", &["-lsimdjson"], folder),
            "more: decodes strings, converts numbers, builds a tree; less: only counts",
        ),
        found(
            "simdjson, on demand",
            package("libsimdjson-dev"),
            || compiled("simdjson_ondemand", &["-lsimdjson"], folder),
            "less: only counts, and of values that it does not enter it checks no more than the \
             encoding and the ends of strings, so that it takes records that are no JSON texts",
        ),
        found(
            "serde_json",
            package("librust-serde-json-dev"),
            || serde(&folder.join("serde")),
            "its reader with a visitor; more: decodes strings, converts numbers; less: only counts",
        ),
        found(
            "Node",
            first_line("node", "--version"),
            || script("node", "node.js"),
            "`JSON.parse` after a decoder that checks the encoding; more: builds a tree; less: only \
             counts; the time is that of all its threads",
        ),
        found(
            "Python",
            first_line("python3", "--version"),
            || script("python3", "python.py"),
            "`json.loads`; more: builds a tree; less: only counts",
        ),
        found(
            "jq",
            first_line("jq", "--version"),
            || Ok(Way::Jq),
            "more: starts a process, reads the file, builds a tree; less: only counts, and replaces \
             what is no UTF-8",
        ),
    ]
}
