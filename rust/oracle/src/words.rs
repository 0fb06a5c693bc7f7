//! The words of a block and the class of a byte (document 01, "Words of 64 bits"), bit by bit.

/// The most bytes of a block.
pub const BLOCK: usize = 64;

const QUOTE: u8 = 0x22;
const BACKSLASH: u8 = 0x5C;

/// What the sorter gives back: four words, and the two facts for the next block.
#[derive(Clone, Copy, PartialEq, Eq, Debug)]
pub struct Words {
    /// Word one: the real quotes.
    pub quotes: u64,
    /// Word two: where the real quotes up to and with the byte are odd in number.
    pub strings: u64,
    /// Word three: opening brackets outside word two.
    pub opening: u64,
    /// Word four: closing brackets outside word two.
    pub closing: u64,
    pub inside: bool,
    pub odd: bool,
}

/// Whether the run of backslashes just before place `i` of the block is odd in number, where an
/// odd run before the block counts as one backslash.
fn odd_run_before(block: &[u8], odd: bool, i: usize) -> bool {
    let run = block[..i].iter().rev().take_while(|&&byte| byte == BACKSLASH).count();
    let carried = usize::from(odd && run == i);
    (run + carried) % 2 == 1
}

/// Whether a real quote stands at place `i`.
fn is_real_quote(block: &[u8], odd: bool, i: usize) -> bool {
    block[i] == QUOTE && !odd_run_before(block, odd, i)
}

/// Whether the real quotes among the first `n` bytes are odd in number, being inside counted as
/// one more before the block.
fn odd_quotes(block: &[u8], inside: bool, odd: bool, n: usize) -> bool {
    let quotes = (0..n).filter(|&i| is_real_quote(block, odd, i)).count();
    (usize::from(inside) + quotes) % 2 == 1
}

/// The word that has bit i for each place i of the block of which the test holds.
fn word(block: &[u8], test: impl Fn(usize) -> bool) -> u64 {
    (0..block.len()).filter(|&i| test(i)).map(|i| 1 << i).sum()
}

/// The block sorter, for all bytes: `rest` is the rest of the record from the block's first byte.
pub fn sort_block(rest: &[u8], inside: bool, odd: bool) -> Words {
    let block = &rest[..rest.len().min(BLOCK)];
    let in_string = |i| odd_quotes(block, inside, odd, i + 1);
    Words {
        quotes: word(block, |i| is_real_quote(block, odd, i)),
        strings: word(block, in_string),
        opening: word(block, |i| matches!(block[i], b'[' | b'{') && !in_string(i)),
        closing: word(block, |i| matches!(block[i], b']' | b'}') && !in_string(i)),
        inside: odd_quotes(block, inside, odd, block.len()),
        odd: odd_run_before(block, odd, block.len()),
    }
}

/// The class of a byte.
pub fn class(byte: u8) -> u8 {
    match byte {
        b'[' | b'{' => 1,
        b']' | b'}' => 2,
        b':' => 3,
        b',' => 4,
        QUOTE => 5,
        BACKSLASH => 6,
        b' ' | b'\t' | b'\n' | b'\r' => 7,
        _ => 0,
    }
}
