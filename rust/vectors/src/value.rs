//! JSON values of the suite: read by the tree of the `oracle` crate, written without blanks, and
//! located by normalized paths.

use oracle::{Kind, Tree};
use std::collections::BTreeSet;

/// A JSON value. Numbers and the three words are kept as they are written.
#[derive(Clone, PartialEq, Eq, Debug)]
pub enum Value {
    Word(String),
    Number(String),
    String(String),
    Array(Vec<Value>),
    Object(Vec<(String, Value)>),
}

/// One part of a path: the name of a member or the position of an element.
#[derive(Clone, PartialEq, Eq, PartialOrd, Ord, Debug)]
pub enum Key {
    Name(String),
    Position(usize),
}

/// A value's first byte and the byte after its last.
pub type Span = (u32, u32);

impl Value {
    /// Reads a JSON text.
    pub fn read(text: &[u8]) -> Result<Value, String> {
        let tree = Tree::of(text).map_err(|place| format!("no JSON text: byte {place}"))?;
        Value::of_node(text, &tree, 0)
    }

    fn of_node(text: &[u8], tree: &Tree, index: u32) -> Result<Value, String> {
        let node = &tree.nodes[index as usize];
        let written = &text[node.start as usize..node.end as usize];
        let plain = || String::from_utf8_lossy(written).into_owned();
        Ok(match node.kind {
            Kind::Word => Value::Word(plain()),
            Kind::Number => Value::Number(plain()),
            Kind::String => Value::String(decode(&written[1..written.len() - 1])?),
            Kind::Array => {
                let elements = tree.children(index).map(|child| Value::of_node(text, tree, child));
                Value::Array(elements.collect::<Result<_, _>>()?)
            }
            Kind::Object => {
                let members = tree.children(index).map(|child| {
                    let name = tree.nodes[child as usize].name_in(text).unwrap_or(&[]);
                    Ok((decode(name)?, Value::of_node(text, tree, child)?))
                });
                Value::Object(members.collect::<Result<_, String>>()?)
            }
        })
    }

    /// The value of the first member of a name.
    pub fn member(&self, wanted: &str) -> Option<&Value> {
        match self {
            Value::Object(members) => {
                members.iter().find(|(name, _)| name == wanted).map(|(_, value)| value)
            }
            _ => None,
        }
    }

    /// Whether an object in the value has two members of one name.
    pub fn repeats_a_name(&self) -> bool {
        match self {
            Value::Array(elements) => elements.iter().any(Value::repeats_a_name),
            Value::Object(members) => {
                let names: BTreeSet<&str> = members.iter().map(|(name, _)| name.as_str()).collect();
                names.len() < members.len()
                    || members.iter().any(|(_, value)| value.repeats_a_name())
            }
            _ => false,
        }
    }

    /// The text without blanks.
    pub fn text(&self) -> String {
        let mut written = Written::default();
        written.value(self);
        written.text
    }
}

/// The text of a value, with the path and the span of every value in it.
#[derive(Default)]
pub struct Written {
    pub text: String,
    pub spans: Vec<(Vec<Key>, Span)>,
    path: Vec<Key>,
}

impl Written {
    /// Writes a value without blanks.
    pub fn value(&mut self, value: &Value) {
        let start = self.text.len() as u32;
        match value {
            Value::Word(text) | Value::Number(text) => self.text.push_str(text),
            Value::String(text) => self.string(text),
            Value::Array(elements) => {
                self.text.push('[');
                for (position, element) in elements.iter().enumerate() {
                    self.comma_after_first(position);
                    self.child(Key::Position(position), element);
                }
                self.text.push(']');
            }
            Value::Object(members) => {
                self.text.push('{');
                for (position, (name, member)) in members.iter().enumerate() {
                    self.comma_after_first(position);
                    self.string(name);
                    self.text.push(':');
                    self.child(Key::Name(name.clone()), member);
                }
                self.text.push('}');
            }
        }
        self.spans.push((self.path.clone(), (start, self.text.len() as u32)));
    }

    fn comma_after_first(&mut self, position: usize) {
        if position > 0 {
            self.text.push(',');
        }
    }

    fn child(&mut self, key: Key, value: &Value) {
        self.path.push(key);
        self.value(value);
        self.path.pop();
    }

    /// Writes a string with the escapes that RFC 8259, section 7, asks for and no other.
    fn string(&mut self, text: &str) {
        self.text.push('"');
        for c in text.chars() {
            match c {
                '"' | '\\' => self.text.extend(['\\', c]),
                '\0'..='\u{1F}' => self.text.push_str(&format!("\\u{:04x}", c as u32)),
                _ => self.text.push(c),
            }
        }
        self.text.push('"');
    }
}

/// Decodes a string of RFC 8259, section 7, without its quotes. Half a surrogate pair is refused.
fn decode(written: &[u8]) -> Result<String, String> {
    let text = std::str::from_utf8(written).map_err(|fault| fault.to_string())?;
    let mut units: Vec<u16> = Vec::new();
    let mut rest = text.chars();
    while let Some(c) = rest.next() {
        if c != '\\' {
            units.extend(c.encode_utf16(&mut [0; 2]).iter());
            continue;
        }
        units.push(match rest.next() {
            Some('b') => 0x08,
            Some('f') => 0x0C,
            Some('n') => 0x0A,
            Some('r') => 0x0D,
            Some('t') => 0x09,
            Some('u') => hexadecimal(&mut rest)?,
            Some(c @ ('"' | '\\' | '/')) => c as u16,
            other => return Err(format!("no escape: {other:?}")),
        });
    }
    String::from_utf16(&units).map_err(|_| format!("half a surrogate pair: {text}"))
}

/// Reads four hexadecimal digits.
fn hexadecimal(rest: &mut std::str::Chars) -> Result<u16, String> {
    let digits: String = rest.by_ref().take(4).collect();
    u16::from_str_radix(&digits, 16).map_err(|fault| fault.to_string())
}

/// Reads a normalized path (RFC 9535, section 2.7).
pub fn normalized_path(path: &str) -> Result<Vec<Key>, String> {
    let fault = || format!("no normalized path: {path}");
    let mut rest = path.strip_prefix('$').ok_or_else(fault)?;
    let mut keys = Vec::new();
    while !rest.is_empty() {
        rest = rest.strip_prefix('[').ok_or_else(fault)?;
        if let Some(quoted) = rest.strip_prefix('\'') {
            let end = end_of_quoted(quoted).ok_or_else(fault)?;
            keys.push(Key::Name(decode(quoted[..end].replace("\\'", "'").as_bytes())?));
            rest = quoted[end + 1..].strip_prefix(']').ok_or_else(fault)?;
        } else {
            let (digits, after) = rest.split_once(']').ok_or_else(fault)?;
            keys.push(Key::Position(digits.parse().map_err(|_| fault())?));
            rest = after;
        }
    }
    Ok(keys)
}

/// The place of the first quote that no backslash escapes.
fn end_of_quoted(quoted: &str) -> Option<usize> {
    let mut escaped = false;
    quoted.bytes().position(|byte| {
        let closes = byte == b'\'' && !escaped;
        escaped = byte == b'\\' && !escaped;
        closes
    })
}
