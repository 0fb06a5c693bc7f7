//! Each vector as a case for the listers, and for the writer of paths: what they are lent and what
//! they have to answer.
//!
//! The nodes that a case expects are those of the vector, located in the text of its document by
//! its own paths, which are also what the writer of paths has to write for them. The `oracle` crate has
//! to pick out the same ones, and to give them these paths; it alone gives the peak and the place of a
//! refusal, by its own reading of the grammar.

use crate::suite::{Alternative, Claim, Vector};
use crate::value::{normalized_path, Span, Value, Written};
use oracle::{path, picks, taken_steps, Answer, Refusal, NO_GROUND};
use std::collections::BTreeSet;

/// How a vector is taken over.
#[derive(Clone, Copy, PartialEq, Eq, Debug)]
pub enum Sort {
    /// Valid here, with the nodes and the order of the vector, or one of its orders.
    AsItStands,
    /// Valid here; the nodes are ordered by their first bytes.
    Ordered,
    /// Valid here; a node that the vector repeats is listed once, by first byte.
    ListedOnce,
    /// Valid in RFC 9535 and left out of this grammar, for the reason of this number.
    LeftOut(usize),
    /// Invalid in both grammars.
    Invalid,
}

/// A reason why this grammar leaves a query out, by what stands at the dead byte.
pub struct Reason {
    pub words: &'static str,
    /// Whether the rest of the query from the dead byte on begins with it.
    stands_at: fn(&str) -> bool,
}

/// The reasons, tried in this order. A vector counts under the first thing in it that this grammar
/// does not have.
pub const REASONS: [Reason; 4] = [
    Reason { words: "a filter", stands_at: |rest| rest.starts_with('?') },
    Reason { words: "a slice", stands_at: begins_slice },
    Reason { words: "a position counted from the end", stands_at: |rest| rest.starts_with('-') },
    Reason { words: "several selectors in one bracket", stands_at: |rest| rest.starts_with(',') },
];

fn begins_slice(rest: &str) -> bool {
    let number = rest.strip_prefix('-').unwrap_or(rest);
    let after = number.trim_start_matches(|c: char| c.is_ascii_digit());
    after.trim_start_matches([' ', '\t', '\n', '\r']).starts_with(':')
}

/// What the listers are lent, and what they have to answer and to write.
pub struct Case {
    pub name: String,
    pub query: String,
    pub record: String,
    pub answer: Answer,
    pub pairs: Vec<Span>,
    pub sort: Sort,
    /// The first byte and the path of each node of the vector's results, also where its query is left
    /// out.
    pub paths: Vec<(u32, String)>,
}

/// Makes the case of a vector, or says why the vector contradicts this reading of the papers.
pub fn case(vector: &Vector) -> Result<Case, String> {
    let case = match &vector.claim {
        Claim::Invalid => invalid(vector),
        Claim::Valid { document, alternatives } => valid(vector, document, alternatives),
    };
    case.map_err(|fault| format!("{}: {fault}", vector.name))
}

/// A query that both grammars refuse. The record is empty, which is refused too, on a later ground.
fn invalid(vector: &Vector) -> Result<Case, String> {
    match taken_steps(vector.query.as_bytes()) {
        Err(refusal) => Ok(refused(vector, String::new(), refusal, Sort::Invalid)),
        Ok(_) => Err("invalid in RFC 9535, but taken here".to_string()),
    }
}

fn refused(vector: &Vector, record: String, refusal: Refusal, sort: Sort) -> Case {
    let Refusal { ground, place } = refusal;
    let answer = Answer { ground, place: place as u32, pairs: 0, peak: 0 };
    let (name, query) = (vector.name.clone(), vector.query.clone());
    Case { name, query, record, answer, pairs: Vec::new(), sort, paths: Vec::new() }
}

/// A query of RFC 9535, in this grammar or left out of it.
fn valid(vector: &Vector, document: &Value, alternatives: &[Alternative]) -> Result<Case, String> {
    if document.repeats_a_name() {
        return Err("a document that repeats a name, for which no result is known".to_string());
    }
    let mut written = Written::default();
    written.value(document);
    let located: Vec<Vec<Span>> = alternatives
        .iter()
        .map(|alternative| locate(alternative, &written))
        .collect::<Result<_, _>>()?;
    let paths = paths(alternatives, &located);
    if let Err(refusal) = taken_steps(vector.query.as_bytes()) {
        let reason = left_out(&vector.query, refusal)?;
        let case = refused(vector, written.text, refusal, Sort::LeftOut(reason));
        return Ok(Case { paths, ..case });
    }
    let pairs = once_by_first_byte(&located[0]);
    if located.iter().any(|spans| once_by_first_byte(spans) != pairs) {
        return Err("the results differ in more than order and repetition".to_string());
    }
    let picks = picks(vector.query.as_bytes(), written.text.as_bytes())
        .map_err(|refusal| format!("{refusal:?}"))?;
    if picks.pairs != pairs {
        return Err(format!("expected {pairs:?}, but {:?} is picked out", picks.pairs));
    }
    let sort = if located.contains(&pairs) {
        Sort::AsItStands
    } else if located.iter().all(|spans| spans.len() > pairs.len()) {
        Sort::ListedOnce
    } else {
        Sort::Ordered
    };
    let (place, peak) = (0, picks.peak);
    let answer = Answer { ground: NO_GROUND, place, pairs: pairs.len() as u32, peak };
    let (name, query) = (vector.name.clone(), vector.query.clone());
    Ok(Case { name, query, record: written.text, answer, pairs, sort, paths })
}

/// The number of the reason why a query is left out.
fn left_out(query: &str, refusal: Refusal) -> Result<usize, String> {
    let rest = query.get(refusal.place..).unwrap_or("");
    REASONS
        .iter()
        .position(|reason| refusal.ground == 2 && (reason.stands_at)(rest))
        .ok_or_else(|| format!("left out for no known reason: {refusal:?}"))
}

/// The spans of the values of one result, found by its paths; the values have to be those of the
/// result, a path must not lead to two members of one name, and the paths have to be those that the
/// `oracle` crate gives.
fn locate(alternative: &Alternative, written: &Written) -> Result<Vec<Span>, String> {
    let mut spans = Vec::new();
    for (value, published) in alternative.values.iter().zip(&alternative.paths) {
        let keys = normalized_path(published)?;
        let mut found = written.spans.iter().filter(|(place, _)| *place == keys);
        let (Some(&(_, span)), None) = (found.next(), found.next()) else {
            return Err(format!("{published} does not lead to exactly one value"));
        };
        let text = &written.text[span.0 as usize..span.1 as usize];
        if text != value.text() {
            return Err(format!("{published} leads to {text}, but the result is {}", value.text()));
        }
        let path = path(written.text.as_bytes(), span.0 as usize).map(|path| path.text);
        if path.as_ref() != Ok(published) {
            return Err(format!("{published} leads to a value whose path is {path:?}"));
        }
        spans.push(span);
    }
    Ok(spans)
}

/// The first bytes of the located values, each once, with the paths that led to them.
fn paths(alternatives: &[Alternative], located: &[Vec<Span>]) -> Vec<(u32, String)> {
    let found = alternatives.iter().zip(located).flat_map(|(alternative, spans)| {
        spans.iter().map(|&(start, _)| start).zip(alternative.paths.iter().cloned())
    });
    found.collect::<BTreeSet<_>>().into_iter().collect()
}

/// The departure of document 01: each node once, by first byte.
fn once_by_first_byte(spans: &[Span]) -> Vec<Span> {
    let mut spans = spans.to_vec();
    spans.sort_unstable();
    spans.dedup();
    spans
}
