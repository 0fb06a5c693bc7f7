//! Grammars as rules that make texts, and the dead byte by its own words: a prefix is alive if
//! some text of the grammar begins with it.

use std::collections::{BTreeSet, HashMap};

/// A rule: its name and its alternatives. The parts of an alternative stand between blanks; a
/// part that names no rule stands for its own bytes, and `SP` for a blank. No rule begins with
/// itself, and each rule makes some text.
pub type Rule = (&'static str, &'static [&'static str]);

/// Whole texts, or what some text begins with.
#[derive(Clone, Copy, PartialEq, Eq, Hash)]
pub enum What {
    Texts,
    Beginnings,
}

/// What a grammar makes, by the parts that make it and the exact length.
pub struct Grammar {
    rules: HashMap<&'static str, &'static [&'static str]>,
    made: HashMap<(What, String, usize), BTreeSet<Vec<u8>>>,
}

impl Grammar {
    pub fn new(rules: &[Rule]) -> Grammar {
        Grammar { rules: rules.iter().copied().collect(), made: HashMap::new() }
    }

    /// A sequence makes a text of its first part and then one of the rest. A text of it begins
    /// with a beginning of the first part, or with a text of that and then a beginning of the rest.
    fn sequence(&mut self, what: What, parts: &[&str], length: usize) -> BTreeSet<Vec<u8>> {
        let key = (what, parts.join(" "), length);
        if let Some(made) = self.made.get(&key) {
            return made.clone();
        }
        let mut made = BTreeSet::new();
        match parts {
            [] if length == 0 => {
                made.insert(Vec::new());
            }
            [] => (),
            [part] => made = self.part(what, part, length),
            [part, rest @ ..] => {
                if what == What::Beginnings {
                    made = self.part(what, part, length);
                }
                for first in 0..=length {
                    let heads = self.part(What::Texts, part, first);
                    if heads.is_empty() {
                        continue;
                    }
                    let tails = self.sequence(what, rest, length - first);
                    for head in &heads {
                        made.extend(tails.iter().map(|tail| [&head[..], tail].concat()));
                    }
                }
            }
        }
        self.made.insert(key, made.clone());
        made
    }

    /// What a rule makes, by any of its alternatives, or a part that stands for its own bytes.
    pub fn part(&mut self, what: What, part: &str, length: usize) -> BTreeSet<Vec<u8>> {
        let Some(alternatives) = self.rules.get(part).copied() else {
            let bytes = if part == "SP" { b" " } else { part.as_bytes() };
            let fits = match what {
                What::Texts => bytes.len() == length,
                What::Beginnings => bytes.len() >= length,
            };
            return bytes.get(..length).filter(|_| fits).map(<[u8]>::to_vec).into_iter().collect();
        };
        let mut made = BTreeSet::new();
        for alternative in alternatives {
            let parts: Vec<&str> = alternative.split_whitespace().collect();
            made.extend(self.sequence(what, &parts, length));
        }
        made
    }
}

/// Asserts for every string over the letters with at most `longest` bytes that `dead_byte` is the
/// place of the first byte with which no text of the first rule begins up to and including it; or
/// else the length, where the string is no text; or else none. What follows a dead byte does not
/// matter: it is tried with one tail.
pub fn dead_bytes_agree(
    rules: &[Rule],
    letters: &[u8],
    longest: usize,
    dead_byte: impl Fn(&[u8]) -> Option<usize>,
) {
    let mut grammar = Grammar::new(rules);
    let mut living = vec![Vec::new()];
    for length in 0..=longest {
        let texts = grammar.part(What::Texts, rules[0].0, length);
        for string in &living {
            let incomplete = (!texts.contains(string)).then_some(length);
            assert_eq!(dead_byte(string), incomplete, "{:?}", String::from_utf8_lossy(string));
        }
        let beginnings = grammar.part(What::Beginnings, rules[0].0, length + 1);
        let mut longer = Vec::new();
        for string in living.iter().flat_map(|string| extended(string, letters)) {
            if beginnings.contains(&string) {
                longer.push(string);
                continue;
            }
            let with_tail = [&string[..], letters].concat();
            assert_eq!(dead_byte(&string), Some(length), "{:?}", String::from_utf8_lossy(&string));
            assert_eq!(dead_byte(&with_tail), Some(length));
        }
        living = longer;
    }
}

/// A string with each of the letters after it.
fn extended<'a>(string: &'a [u8], letters: &'a [u8]) -> impl Iterator<Item = Vec<u8>> + 'a {
    letters.iter().map(move |&letter| [string, &[letter]].concat())
}
