//! The files that are made of the suite.
//!
//! The program that runs the vectors reads a file of cases (`docs/SAMPLES.md` has its notation): for
//! each vector its name as a note, its record, its query, and the first byte of each node of its
//! results, for the path. What it has to print is that file with the answers of both walks below each
//! query, that of the writer of paths below each node, and the number of cases.

use crate::case::{case, Case, Sort, REASONS};
use crate::suite;
use crate::value::Value;
use oracle::NO_GROUND;
use samples::{notation, path_with, walks_with};

/// A file of the repository: its path from the top folder, and its contents.
pub struct File {
    pub path: &'static str,
    pub contents: String,
}

/// The numbers of the list that each case is lent, which are also the bytes of the buffer for a path,
/// and the most pairs that it may need.
const NUMBERS: usize = 64;
const MAX_PAIRS: usize = NUMBERS / 2;

/// Makes every file from the text of the suite, or says what is wrong with the suite.
pub fn files(text: &[u8]) -> Result<Vec<File>, String> {
    let vectors = suite::read(text)?;
    let cases: Vec<Case> = vectors.iter().map(case).collect::<Result<_, _>>()?;
    if let Some(case) = cases.iter().find(|case| case.name.contains('\n')) {
        return Err(format!("a name with a line feed: {:?}", case.name));
    }
    if let Some(case) = cases.iter().find(|case| case.pairs.len() > MAX_PAIRS) {
        return Err(format!("{}: more than {MAX_PAIRS} pairs", case.name));
    }
    if let Some(case) =
        cases.iter().find(|case| case.paths.iter().any(|(_, path)| path.len() > NUMBERS))
    {
        return Err(format!("{}: a path of more than {NUMBERS} bytes", case.name));
    }
    Ok(vec![
        File { path: "crates/vectors/stdin", contents: input(&cases) },
        File { path: "crates/vectors/stdout", contents: expected(&cases) },
        File { path: "rust/vectors/vectors.tsv", contents: rows(&cases) },
        File { path: "docs/VECTORS.md", contents: page(&cases) },
    ])
}

/// The first lines of the file of cases.
fn head() -> String {
    format!("# The published vectors. The generator in rust/vectors writes this file.\n\nlist {NUMBERS}\n")
}

/// The lines of a case, up to its query.
fn lines(case: &Case) -> String {
    let Case { name, query, record, .. } = case;
    let line = |word: &str, text: &str| match text {
        "" => format!("{word}\n"),
        _ => format!("{word} {}\n", notation::text(text)),
    };
    format!("\n# {name}\n{}{}", line("record", record), line("query", query))
}

/// The line that asks for the path of a node.
fn path_line(start: u32) -> String {
    format!("path {start}\n")
}

/// The input of the program.
fn input(cases: &[Case]) -> String {
    let asked =
        |case: &Case| case.paths.iter().map(|&(start, _)| path_line(start)).collect::<String>();
    head() + &cases.iter().map(|case| lines(case) + &asked(case)).collect::<String>()
}

/// The output of the program.
fn expected(cases: &[Case]) -> String {
    let answers = |Case { answer, pairs, .. }: &Case| {
        let numbers = pairs.iter().flat_map(|&(start, end)| [start as u32, end as u32]);
        walks_with(answer, numbers, NUMBERS)
    };
    let written = |case: &Case| -> String {
        case.paths
            .iter()
            .map(|(start, path)| path_line(*start) + &path_with(path, NUMBERS))
            .collect()
    };
    let runs: String =
        cases.iter().map(|case| lines(case) + &answers(case) + &written(case)).collect();
    format!("{}{runs}{} cases\n", head(), cases.len() + path_count(cases))
}

/// How many paths are asked for.
fn path_count(cases: &[Case]) -> usize {
    cases.iter().map(|case| case.paths.len()).sum()
}

/// What becomes of a vector, in words.
fn words(sort: Sort) -> String {
    match sort {
        Sort::AsItStands => "valid as it stands".to_string(),
        Sort::Ordered => "valid, ordered by first byte".to_string(),
        Sort::ListedOnce => "valid, a repeated node listed once".to_string(),
        Sort::LeftOut(reason) => format!("left out: {}", REASONS[reason].words),
        Sort::Invalid => "invalid in both grammars".to_string(),
    }
}

/// A row for each vector.
fn rows(cases: &[Case]) -> String {
    let mut rows = "number\tname\tquery\twhat becomes of it\tground\tplace\tnodes\n".to_string();
    for (index, case) in cases.iter().enumerate() {
        let Case { name, answer, sort, .. } = case;
        let query = Value::String(case.query.clone()).text();
        let (number, sort) = (index + 1, words(*sort));
        let numbers = format!("{}\t{}\t{}", answer.ground, answer.place, answer.pairs);
        rows += &format!("{number}\t{name}\t{query}\t{sort}\t{numbers}\n");
    }
    rows
}

/// `docs/VECTORS.md`, with its figures.
fn page(cases: &[Case]) -> String {
    let count = |test: &dyn Fn(&Case) -> bool| cases.iter().filter(|case| test(case)).count();
    let of_sort = |sort: Sort| count(&|case| case.sort == sort);
    let listed = count(&|case| case.answer.ground == NO_GROUND);
    let left_out = count(&|case| matches!(case.sort, Sort::LeftOut(_)));
    let reasons: String = REASONS
        .iter()
        .enumerate()
        .map(|(number, reason)| {
            format!("| {} | {} |\n", reason.words, of_sort(Sort::LeftOut(number)))
        })
        .collect();
    let figures = [
        ("ALL", cases.len()),
        ("LISTED", listed),
        ("REFUSED", cases.len() - listed),
        ("AS_IT_STANDS", of_sort(Sort::AsItStands)),
        ("ORDERED", of_sort(Sort::Ordered)),
        ("ONCE", of_sort(Sort::ListedOnce)),
        ("LEFT_OUT", left_out),
        ("INVALID", of_sort(Sort::Invalid)),
        ("ESCAPES", count(&|case| case.answer.ground == NO_GROUND && case.query.contains('\\'))),
        ("LINE_FEEDS", count(&|case| case.query.contains('\n'))),
        ("PATHS", path_count(cases)),
        ("WITH_PATHS", count(&|case| !case.paths.is_empty())),
    ];
    let mut page = include_str!("page.md").replace("{REASONS}\n", &reasons);
    for (name, figure) in figures {
        page = page.replace(&format!("{{{name}}}"), &figure.to_string());
    }
    page
}
