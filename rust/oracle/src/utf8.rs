//! UTF-8 by the nine rows of document 01 ("Words of 64 bits").

/// A range of bytes, both ends included.
type Range = (u8, u8);

/// One row: the range of the first byte and the ranges of those that follow it.
struct Row {
    first: Range,
    rest: &'static [Range],
}

const CONTINUATION: Range = (0x80, 0xBF);

const ROWS: [Row; 9] = [
    Row { first: (0x00, 0x7F), rest: &[] },
    Row { first: (0xC2, 0xDF), rest: &[CONTINUATION] },
    Row { first: (0xE0, 0xE0), rest: &[(0xA0, 0xBF), CONTINUATION] },
    Row { first: (0xE1, 0xEC), rest: &[CONTINUATION, CONTINUATION] },
    Row { first: (0xED, 0xED), rest: &[(0x80, 0x9F), CONTINUATION] },
    Row { first: (0xEE, 0xEF), rest: &[CONTINUATION, CONTINUATION] },
    Row { first: (0xF0, 0xF0), rest: &[(0x90, 0xBF), CONTINUATION, CONTINUATION] },
    Row { first: (0xF1, 0xF3), rest: &[CONTINUATION, CONTINUATION, CONTINUATION] },
    Row { first: (0xF4, 0xF4), rest: &[(0x80, 0x8F), CONTINUATION, CONTINUATION] },
];

fn within(range: Range, byte: u8) -> bool {
    range.0 <= byte && byte <= range.1
}

/// Reads the code point that starts at `at`: the place after it, or else the place of the first
/// byte with which no code point goes on, which is the length where the text ends too early.
pub fn code_point(text: &[u8], at: usize) -> Result<usize, usize> {
    let first = *text.get(at).ok_or(at)?;
    let row = ROWS.iter().find(|row| within(row.first, first)).ok_or(at)?;
    let mut next = at + 1;
    for &range in row.rest {
        match text.get(next) {
            Some(&byte) if within(range, byte) => next += 1,
            _ => return Err(next),
        }
    }
    Ok(next)
}
