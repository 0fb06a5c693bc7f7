//! The published suite, vector by vector.

use crate::value::Value;

/// One result that a vector permits: the values and where they stand, in order.
pub struct Alternative {
    pub values: Vec<Value>,
    pub paths: Vec<String>,
}

/// What a vector says of its query: that RFC 9535 does not have it, or what it gives.
pub enum Claim {
    Invalid,
    Valid { document: Value, alternatives: Vec<Alternative> },
}

/// One vector of the suite.
pub struct Vector {
    pub name: String,
    pub query: String,
    pub claim: Claim,
}

/// The members that a vector may have. Any other would be a form that this reading does not know.
const KNOWN: [&str; 9] = [
    "name",
    "selector",
    "document",
    "result",
    "result_paths",
    "results",
    "results_paths",
    "invalid_selector",
    "tags",
];

/// Reads the suite. A form that is not known is a fault, never passed over.
pub fn read(text: &[u8]) -> Result<Vec<Vector>, String> {
    let suite = Value::read(text)?;
    let tests = elements(suite.member("tests").ok_or("no tests")?)?;
    tests.iter().map(vector).collect()
}

fn elements(value: &Value) -> Result<&[Value], String> {
    match value {
        Value::Array(elements) => Ok(elements),
        other => Err(format!("no array: {}", other.text())),
    }
}

fn string(value: &Value) -> Result<String, String> {
    match value {
        Value::String(text) => Ok(text.clone()),
        other => Err(format!("no string: {}", other.text())),
    }
}

fn vector(test: &Value) -> Result<Vector, String> {
    let Value::Object(members) = test else { return Err(format!("no vector: {}", test.text())) };
    if let Some((unknown, _)) = members.iter().find(|(name, _)| !KNOWN.contains(&name.as_str())) {
        return Err(format!("a member that is not known: {unknown}"));
    }
    let needed = |name: &str| {
        test.member(name).ok_or_else(|| format!("a vector without {name}: {}", test.text()))
    };
    let claim = match test.member("invalid_selector") {
        Some(Value::Word(word)) if word == "true" => Claim::Invalid,
        Some(other) => return Err(format!("invalid_selector is {}", other.text())),
        None => Claim::Valid {
            document: needed("document")?.clone(),
            alternatives: match test.member("result") {
                Some(values) => vec![alternative(values, needed("result_paths")?)?],
                None => alternatives(needed("results")?, needed("results_paths")?)?,
            },
        },
    };
    let (name, query) = (string(needed("name")?)?, string(needed("selector")?)?);
    Ok(Vector { name, query, claim })
}

fn alternatives(values: &Value, paths: &Value) -> Result<Vec<Alternative>, String> {
    let (values, paths) = (elements(values)?, elements(paths)?);
    if values.len() != paths.len() || values.is_empty() {
        return Err("as many results as paths, and at least one, are needed".to_string());
    }
    values.iter().zip(paths).map(|(values, paths)| alternative(values, paths)).collect()
}

fn alternative(values: &Value, paths: &Value) -> Result<Alternative, String> {
    let (values, paths) = (elements(values)?.to_vec(), elements(paths)?);
    let paths: Vec<String> = paths.iter().map(string).collect::<Result<_, _>>()?;
    if values.len() != paths.len() {
        return Err("as many values as paths are needed".to_string());
    }
    Ok(Alternative { values, paths })
}
