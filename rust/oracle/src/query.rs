//! The part of RFC 9535 that document 01 states ("The part of RFC 9535"), and grounds 1 to 3.

use crate::answers::Refusal;
use crate::names::code_points;
use crate::utf8::code_point;

/// The most bytes of a query that is taken.
pub const MAX_QUERY: usize = 1_024;
/// The most steps of a query that is taken.
pub const MAX_STEPS: usize = 16;

/// The largest position in an array that a query may ask for: 2^53 - 1 (RFC 9535, section 2.1).
pub const MAX_POSITION: u64 = (1 << 53) - 1;

/// What a step takes from a node: every child, the members of a name, or the element at a position.
#[derive(Clone, PartialEq, Eq, Debug)]
pub enum Selector {
    Every,
    /// The name's code points.
    Name(Vec<u32>),
    Position(u64),
}

/// A step of a query, with the place of the `.` or `[` that begins it.
#[derive(Clone, PartialEq, Eq, Debug)]
pub struct Step {
    pub deep: bool,
    pub selector: Selector,
    pub place: usize,
}

/// The blanks of a query, hexadecimal 20, 09, 0A and 0D.
fn is_blank(byte: u8) -> bool {
    matches!(byte, 0x20 | 0x09 | 0x0A | 0x0D)
}

/// A letter, `_` or the first byte of a code point from 80 (hexadecimal) on.
fn begins_name(byte: u8) -> bool {
    byte.is_ascii_alphabetic() || byte == b'_' || byte >= 0x80
}

/// The place at which the reading cannot go on: a dead byte, or the length.
type Stop = usize;

struct Reading<'a> {
    query: &'a [u8],
    at: usize,
}

impl Reading<'_> {
    fn peek(&self) -> Option<u8> {
        self.query.get(self.at).copied()
    }

    /// Passes this byte, if it stands here.
    fn passes(&mut self, byte: u8) -> bool {
        let here = self.peek() == Some(byte);
        self.at += usize::from(here);
        here
    }

    fn blanks(&mut self) {
        while self.peek().is_some_and(is_blank) {
            self.at += 1;
        }
    }

    /// `$` and then steps. Blanks that stand at the end call for one step more.
    fn query(&mut self) -> Result<Vec<Step>, Stop> {
        if !self.passes(b'$') {
            return Err(self.at);
        }
        let mut steps = Vec::new();
        while self.peek().is_some() {
            self.blanks();
            steps.push(self.step()?);
        }
        Ok(steps)
    }

    /// `.` or `..` and a shorthand name or `*`; or a pair of brackets, with or without `..`.
    fn step(&mut self) -> Result<Step, Stop> {
        let place = self.at;
        let dot = self.passes(b'.');
        let deep = dot && self.passes(b'.');
        let bracket = (deep || !dot) && self.passes(b'[');
        let selector = if bracket {
            self.bracketed()?
        } else if dot {
            self.shorthand()?
        } else {
            return Err(self.at);
        };
        Ok(Step { deep, selector, place })
    }

    /// A shorthand name or `*`, directly after the dots.
    fn shorthand(&mut self) -> Result<Selector, Stop> {
        if self.passes(b'*') {
            return Ok(Selector::Every);
        }
        let start = self.at;
        if !self.peek().is_some_and(begins_name) {
            return Err(self.at);
        }
        while self.peek().is_some_and(|byte| begins_name(byte) || byte.is_ascii_digit()) {
            self.at = code_point(self.query, self.at)?;
        }
        Ok(Selector::Name(code_points(&self.query[start..self.at])))
    }

    /// What stands in brackets after the opening one: one quoted name, one position or one `*`,
    /// blanks around it, and the closing bracket.
    fn bracketed(&mut self) -> Result<Selector, Stop> {
        self.blanks();
        let selector = match self.peek() {
            Some(b'*') => {
                self.at += 1;
                Selector::Every
            }
            Some(quote @ (b'\'' | b'"')) => self.quoted(quote)?,
            Some(b'0'..=b'9') => self.position(),
            _ => return Err(self.at),
        };
        self.blanks();
        if !self.passes(b']') {
            return Err(self.at);
        }
        Ok(selector)
    }

    /// A position (RFC 9535, section 2.3.3, without the minus sign): `0`, or a digit other than 0
    /// and then digits, as many as stand here and make a number up to the maximum.
    fn position(&mut self) -> Selector {
        let rest = &self.query[self.at..];
        let digits = rest.iter().take_while(|byte| byte.is_ascii_digit()).count();
        let longest = if rest[0] == b'0' { 1 } else { digits };
        let number = |length: usize| std::str::from_utf8(&rest[..length]).ok()?.parse::<u64>().ok();
        let fitting = |length: &usize| number(*length).is_some_and(|n| n <= MAX_POSITION);
        let length = (1..=longest).rev().find(fitting).expect("one digit fits");
        self.at += length;
        Selector::Position(number(length).expect("it fits"))
    }

    /// A quoted name (RFC 9535, section 2.3.1.1): no control below 20 (hexadecimal), not its own
    /// quote, and a backslash only where an escape begins.
    fn quoted(&mut self, quote: u8) -> Result<Selector, Stop> {
        self.at += 1;
        let start = self.at;
        while self.peek() != Some(quote) {
            match self.peek() {
                None | Some(0x00..=0x1F) => return Err(self.at),
                Some(b'\\') => self.escape(quote)?,
                Some(_) => self.at = code_point(self.query, self.at)?,
            }
        }
        let name = code_points(&self.query[start..self.at]);
        self.at += 1;
        Ok(Selector::Name(name))
    }

    /// One byte of those that are asked for.
    fn one(&mut self, is_asked_for: impl Fn(u8) -> bool) -> Result<u8, Stop> {
        let byte = self.peek().filter(|&byte| is_asked_for(byte)).ok_or(self.at)?;
        self.at += 1;
        Ok(byte)
    }

    /// A backslash, and one of `b f n r t / \`, the name's own quote, or `u` and hexadecimal digits.
    fn escape(&mut self, quote: u8) -> Result<(), Stop> {
        self.at += 1;
        let short = |byte| byte == quote || b"bfnrt/\\u".contains(&byte);
        match self.one(short)? {
            b'u' => self.hexchar(),
            _ => Ok(()),
        }
    }

    /// `hexchar`: four digits that are no half of a surrogate pair, or a high half and, as another
    /// escape, a low half.
    fn hexchar(&mut self) -> Result<(), Stop> {
        let is_digit = |byte: u8| byte.is_ascii_hexdigit();
        let is_d = |byte: u8| byte.eq_ignore_ascii_case(&b'D');
        let below_c = |byte: u8| is_digit(byte) && byte.to_ascii_uppercase() < b'C';
        let is_half = if is_d(self.one(is_digit)?) {
            self.one(below_c)? > b'7'
        } else {
            self.one(is_digit)?;
            false
        };
        self.one(is_digit)?;
        self.one(is_digit)?;
        if is_half {
            self.one(|byte| byte == b'\\')?;
            self.one(|byte| byte == b'u')?;
            self.one(is_d)?;
            self.one(|byte| is_digit(byte) && byte.to_ascii_uppercase() >= b'C')?;
            self.one(is_digit)?;
            self.one(is_digit)?;
        }
        Ok(())
    }
}

/// The steps of a query of the grammar, or its dead byte. The grammar knows no limits.
pub fn read_steps(query: &[u8]) -> Result<Vec<Step>, usize> {
    Reading { query, at: 0 }.query()
}

/// The steps of a query that is taken, or the first of grounds 1 to 3 that fits it, where ground 2
/// goes before ground 1 if its place is below the limit of ground 1.
pub fn taken_steps(query: &[u8]) -> Result<Vec<Step>, Refusal> {
    let read = read_steps(query).map_err(|place| Refusal { ground: 2, place });
    if query.len() > MAX_QUERY && !matches!(read, Err(Refusal { place: 0..MAX_QUERY, .. })) {
        return Err(Refusal { ground: 1, place: MAX_QUERY });
    }
    let steps = read?;
    match steps.get(MAX_STEPS) {
        Some(step) => Err(Refusal { ground: 3, place: step.place }),
        None => Ok(steps),
    }
}
