//! JSON texts of RFC 8259: the dead byte, the levels of nesting, and the tree of values.
//!
//! One reading of the grammar tells of what it meets; whoever listens counts levels or builds the
//! tree. Open containers are kept in a vector, so that no nesting is too deep for the machine's
//! stack.

use crate::names::code_points;
use crate::utf8::code_point;

/// The five kinds of value; `true`, `false` and `null` are one.
#[derive(Clone, Copy, PartialEq, Eq, Debug)]
pub enum Kind {
    Object,
    Array,
    String,
    Number,
    Word,
}

impl Kind {
    /// Whether the value is a container (document 01, "Marks, frames, the pile").
    pub fn is_container(self) -> bool {
        matches!(self, Kind::Object | Kind::Array)
    }
}

/// What the reading meets, in the order of the bytes. Ends are the place after the last byte.
#[derive(Clone, Copy)]
enum Event {
    Open {
        kind: Kind,
        start: usize,
    },
    Close {
        end: usize,
    },
    Scalar {
        kind: Kind,
        start: usize,
        end: usize,
    },
    /// A member's name, without its quotes.
    Name {
        start: usize,
        end: usize,
    },
}

/// What may stand next, blanks aside.
#[derive(Clone, Copy)]
enum Next {
    Value,
    ValueOrClose,
    NameOrClose,
    Name,
    Colon,
    /// After a value: a comma or the closing byte in a container, and nothing outside.
    AfterValue,
}

/// The place at which the reading cannot go on: a dead byte, or the length.
type Stop = usize;

struct Reading<'a, F: FnMut(Event)> {
    text: &'a [u8],
    at: usize,
    /// The open containers, the innermost last.
    open: Vec<Kind>,
    tell: F,
}

/// RFC 8259, section 2: `ws`.
fn is_blank(byte: u8) -> bool {
    matches!(byte, b' ' | b'\t' | b'\n' | b'\r')
}

impl<F: FnMut(Event)> Reading<'_, F> {
    fn peek(&self) -> Option<u8> {
        self.text.get(self.at).copied()
    }

    /// RFC 8259, section 2: `JSON-text = ws value ws`.
    fn json_text(&mut self) -> Result<(), Stop> {
        let mut next = Next::Value;
        loop {
            while self.peek().is_some_and(is_blank) {
                self.at += 1;
            }
            match self.peek() {
                Some(byte) => next = self.item(next, byte)?,
                None if self.open.is_empty() && matches!(next, Next::AfterValue) => return Ok(()),
                None => return Err(self.at),
            }
        }
    }

    /// Reads one value that is no container, one name or one structural byte.
    fn item(&mut self, next: Next, byte: u8) -> Result<Next, Stop> {
        match next {
            Next::ValueOrClose if byte == b']' => self.close(),
            Next::NameOrClose if byte == b'}' => self.close(),
            Next::Value | Next::ValueOrClose => self.value(byte),
            Next::Name | Next::NameOrClose => self.name(byte),
            Next::Colon => self.byte(b':', Next::Value),
            Next::AfterValue => self.after_value(byte),
        }
    }

    /// RFC 8259, section 3: `value`.
    fn value(&mut self, byte: u8) -> Result<Next, Stop> {
        match byte {
            b'{' => self.open(Kind::Object, Next::NameOrClose),
            b'[' => self.open(Kind::Array, Next::ValueOrClose),
            b'"' => self.scalar(Kind::String, Self::string),
            b'-' | b'0'..=b'9' => self.scalar(Kind::Number, Self::number),
            b't' => self.scalar(Kind::Word, |reading| reading.word(b"true")),
            b'f' => self.scalar(Kind::Word, |reading| reading.word(b"false")),
            b'n' => self.scalar(Kind::Word, |reading| reading.word(b"null")),
            _ => Err(self.at),
        }
    }

    fn open(&mut self, kind: Kind, next: Next) -> Result<Next, Stop> {
        (self.tell)(Event::Open { kind, start: self.at });
        self.open.push(kind);
        self.at += 1;
        Ok(next)
    }

    fn close(&mut self) -> Result<Next, Stop> {
        self.open.pop();
        self.at += 1;
        (self.tell)(Event::Close { end: self.at });
        Ok(Next::AfterValue)
    }

    fn after_value(&mut self, byte: u8) -> Result<Next, Stop> {
        match (self.open.last(), byte) {
            (Some(Kind::Object), b'}') | (Some(Kind::Array), b']') => self.close(),
            (Some(Kind::Object), b',') => self.byte(b',', Next::Name),
            (Some(Kind::Array), b',') => self.byte(b',', Next::Value),
            _ => Err(self.at),
        }
    }

    fn byte(&mut self, wanted: u8, next: Next) -> Result<Next, Stop> {
        self.word(&[wanted])?;
        Ok(next)
    }

    fn scalar(
        &mut self,
        kind: Kind,
        read: impl Fn(&mut Self) -> Result<(), Stop>,
    ) -> Result<Next, Stop> {
        let start = self.at;
        read(self)?;
        (self.tell)(Event::Scalar { kind, start, end: self.at });
        Ok(Next::AfterValue)
    }

    /// RFC 8259, section 4: the name of a `member`.
    fn name(&mut self, byte: u8) -> Result<Next, Stop> {
        if byte != b'"' {
            return Err(self.at);
        }
        let start = self.at + 1;
        self.string()?;
        (self.tell)(Event::Name { start, end: self.at - 1 });
        Ok(Next::Colon)
    }

    /// Reads exactly these bytes.
    fn word(&mut self, wanted: &[u8]) -> Result<(), Stop> {
        for &byte in wanted {
            if self.peek() != Some(byte) {
                return Err(self.at);
            }
            self.at += 1;
        }
        Ok(())
    }

    /// RFC 8259, section 6: `number`.
    fn number(&mut self) -> Result<(), Stop> {
        if self.peek() == Some(b'-') {
            self.at += 1;
        }
        if self.peek() == Some(b'0') {
            self.at += 1;
        } else {
            self.digits()?;
        }
        if self.peek() == Some(b'.') {
            self.at += 1;
            self.digits()?;
        }
        if matches!(self.peek(), Some(b'e' | b'E')) {
            self.at += 1;
            if matches!(self.peek(), Some(b'+' | b'-')) {
                self.at += 1;
            }
            self.digits()?;
        }
        Ok(())
    }

    /// One digit or more.
    fn digits(&mut self) -> Result<(), Stop> {
        if !self.peek().is_some_and(|byte| byte.is_ascii_digit()) {
            return Err(self.at);
        }
        while self.peek().is_some_and(|byte| byte.is_ascii_digit()) {
            self.at += 1;
        }
        Ok(())
    }

    /// RFC 8259, section 7: `string`, in UTF-8 by section 8.1.
    fn string(&mut self) -> Result<(), Stop> {
        self.word(b"\"")?;
        loop {
            match self.peek() {
                None | Some(0x00..=0x1F) => return Err(self.at),
                Some(b'"') => return self.word(b"\""),
                Some(b'\\') => self.escape()?,
                Some(_) => self.at = code_point(self.text, self.at)?,
            }
        }
    }

    /// RFC 8259, section 7: a backslash and what it stands before. Half a surrogate pair is in
    /// the grammar.
    fn escape(&mut self) -> Result<(), Stop> {
        self.word(b"\\")?;
        match self.peek() {
            Some(b'"' | b'\\' | b'/' | b'b' | b'f' | b'n' | b'r' | b't') => self.at += 1,
            Some(b'u') => {
                self.at += 1;
                for _ in 0..4 {
                    if !self.peek().is_some_and(|byte| byte.is_ascii_hexdigit()) {
                        return Err(self.at);
                    }
                    self.at += 1;
                }
            }
            _ => return Err(self.at),
        }
        Ok(())
    }
}

/// Reads a text and tells of what it meets up to the place where it must stop, if there is one.
fn read(text: &[u8], tell: impl FnMut(Event)) -> Option<Stop> {
    let mut reading = Reading { text, at: 0, open: Vec::new(), tell };
    reading.json_text().err()
}

/// The dead byte of a text, by the grammar without limits (document 01, "Grounds for refusing"):
/// none for a JSON text, and the length for a text that is still incomplete.
pub fn dead_byte(text: &[u8]) -> Option<usize> {
    read(text, |_| ())
}

/// The first bracket that the grammar allows at its place and that opens this level of nesting.
pub fn first_bracket_of_level(text: &[u8], wanted: usize) -> Option<usize> {
    let mut level = 0;
    let mut first = None;
    read(text, |event| match event {
        Event::Open { start, .. } => {
            level += 1;
            if level == wanted && first.is_none() {
                first = Some(start);
            }
        }
        Event::Close { .. } => level -= 1,
        _ => (),
    });
    first
}

/// A value of a record. The name is where its bytes stand, between their quotes, and only a
/// member of an object has one; the position is counted from 0, and only an element of an array
/// has one.
#[derive(Clone, Copy, Debug)]
pub struct Node {
    pub kind: Kind,
    pub start: u32,
    pub end: u32,
    pub parent: Option<u32>,
    pub name: Option<(u32, u32)>,
    pub position: Option<u32>,
}

impl Node {
    /// The name's bytes as they are written between their quotes.
    pub fn name_in<'a>(&self, text: &'a [u8]) -> Option<&'a [u8]> {
        self.name.map(|(start, end)| &text[start as usize..end as usize])
    }

    /// The name's code points.
    pub fn name_points(&self, text: &[u8]) -> Option<Vec<u32>> {
        self.name_in(text).map(code_points)
    }
}

/// The nodes of a record in the order of their first bytes. A parent stands before its children;
/// the root is the first.
pub struct Tree {
    pub nodes: Vec<Node>,
}

/// Builds the tree from what the reading tells. Of each open container it knows how many children
/// there are so far.
struct Builder {
    nodes: Vec<Node>,
    open: Vec<(u32, u32)>,
    name: Option<(u32, u32)>,
}

impl Builder {
    fn hear(&mut self, event: Event) {
        match event {
            Event::Name { start, end } => self.name = Some((start as u32, end as u32)),
            Event::Scalar { kind, start, end } => self.add(kind, start, end),
            Event::Open { kind, start } => {
                let index = self.nodes.len() as u32;
                self.add(kind, start, start);
                self.open.push((index, 0));
            }
            Event::Close { end } => {
                if let Some((index, _)) = self.open.pop() {
                    self.nodes[index as usize].end = end as u32;
                }
            }
        }
    }

    fn add(&mut self, kind: Kind, start: usize, end: usize) {
        let (start, end) = (start as u32, end as u32);
        let name = self.name.take();
        let (mut parent, mut position) = (None, None);
        if let Some((index, children)) = self.open.last_mut() {
            let in_array = self.nodes[*index as usize].kind == Kind::Array;
            (parent, position) = (Some(*index), in_array.then_some(*children));
            *children += 1;
        }
        self.nodes.push(Node { kind, start, end, parent, name, position });
    }
}

impl Tree {
    /// The tree of a JSON text, or its dead byte. Places are 32-bit numbers here: the text has
    /// fewer than 2^32 bytes.
    pub fn of(text: &[u8]) -> Result<Tree, usize> {
        assert!(u32::try_from(text.len()).is_ok(), "a text of 2^32 bytes or more");
        let mut builder = Builder { nodes: Vec::new(), open: Vec::new(), name: None };
        match read(text, |event| builder.hear(event)) {
            None => Ok(Tree { nodes: builder.nodes }),
            Some(place) => Err(place),
        }
    }

    /// The children of a node, in order.
    pub fn children(&self, parent: u32) -> impl Iterator<Item = u32> + '_ {
        (parent + 1..self.nodes.len() as u32)
            .take_while(move |&child| {
                self.nodes[child as usize].start < self.nodes[parent as usize].end
            })
            .filter(move |&child| self.nodes[child as usize].parent == Some(parent))
    }
}
