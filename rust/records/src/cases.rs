//! Random cases for tests: queries and records, whole and damaged, lists, buffers and blocks.

use crate::Random;

/// Names, however they are written.
#[rustfmt::skip]
const NAMES: [&str; 24] = [
    "a", "b", "lot", "lots", "lo", "M", "_9", "é", "日本", "𝄞", "", "x y", "a'", "]", "{", "\u{7F}",
    "a\"", "/", "\\", "\\n", "\n", "\u{8}\u{C}\r\t", "😀", "größe",
];

/// Names that differ late or in length, around eight bytes.
const LONG_NAMES: [&str; 6] =
    ["abcdefgh", "abcdefgi", "abcdefg", "abcdefghi", "xbcdefgh", "abcdefghabcdefghabcdefgh"];

/// Positions that no array reaches, around the limits of numbers, with two that no query may have.
const FAR_POSITIONS: [&str; 8] = [
    "255",
    "4294967295",
    "4294967296",
    "4294967297",
    "9007199254740990",
    "9007199254740991",
    "9007199254740992",
    "18446744073709551616",
];

/// A name of no query.
const NO_QUERY_NAME: &str = "private notes";

/// Names that only records can hold, as they are written: with half of a surrogate pair; and some
/// with escapes that names of queries come near to, and that paths write in another way.
const RECORD_NAMES: [&str; 13] = [
    r"\uD800",
    r"\ud83d\ud83d\ude00",
    r"\uDE00\uD83D",
    r"\ud83d",
    r"\uD834x",
    r"a\\",
    r#"\"a"#,
    r#"a\":{"#,
    r"\\\\",
    r"\u00610",
    r"\u0000\u000B",
    r"\u000e\u001F\u0020",
    r"'\u0027\\'",
];

/// Escapes that no quoted name may have, all or nearly all of them.
const WRONG_ESCAPES: [&str; 10] = [
    r"\U0061",
    r"\uD800",
    r"\uDC00",
    r"\uD83D\n",
    r"\uD83D\u0041",
    r"\uD83D\uD83D",
    r"\u006",
    r"\x61",
    r"\'",
    r#"\""#,
];

/// Bytes that mean something in one of the grammars, or stand at an edge of a range.
const TELLING: &[u8] =
    b"\"\"\\\\[]{}[]{},,::0019-+.eEtrufalsnD8dc \t\n\r$.*'_/b\0\x1F\x7F\x80\x8F\x90\
    \x9F\xA0\xBF\xC1\xC2\xDF\xE0\xEC\xED\xEF\xF0\xF3\xF4\xF5\xFF";

/// What strings are made of: brackets and quotes that are none, escapes, names, code points.
const STRING_PARTS: [&str; 18] = [
    "[", "]", "{", "}", ":", ",", "lot", "a", r#"\""#, r#"\""#, r"\n", r"\/", r"\u00e9", r"\uDC00",
    "é", "☺", "𝄞", "\u{7F}",
];

/// The names of one case: mostly the first two or three, so that the query finds them often and
/// marks come and go on the way down.
pub type Names = &'static [&'static str];

/// Names for a query and a record that go together.
pub fn names(random: &mut Random) -> Names {
    match random.below(8) {
        0 => &NAMES[..1],
        1..=2 => &NAMES[..2],
        3 => &NAMES[16..],
        4 => &NAMES[..3],
        5 => &NAMES[2..5],
        6 => &LONG_NAMES,
        _ if random.once_in(2) => &NAMES[16..],
        _ => &NAMES,
    }
}

const BLANKS: &[u8] = b" \t\n\r";

/// Blanks: mostly none, now and then many.
fn blanks(random: &mut Random, out: &mut Vec<u8>) {
    let most = *random.one_of(&[0, 0, 0, 0, 0, 0, 0, 0, 0, 0, 1, 1, 3, 3, 3, 30]);
    for _ in 0..random.below(most + 1) {
        out.push(*random.one_of(BLANKS));
    }
}

/// Changes a few bytes, often near the end: one is replaced, left out, put in or doubled, or the
/// rest is cut off.
pub fn damage(random: &mut Random, bytes: &mut Vec<u8>) {
    for _ in 0..random.between(1, 3) {
        let reach = if random.once_in(2) { bytes.len() } else { bytes.len().min(20) };
        let at = bytes.len() - random.below(reach + 1);
        let telling = *random.one_of(TELLING);
        match random.below(5) {
            0 => bytes.insert(at, telling),
            1 => bytes.truncate(at),
            _ if at == bytes.len() => bytes.push(telling),
            2 => {
                bytes.remove(at);
            }
            3 => bytes[at] = telling,
            _ => bytes.insert(at, bytes[at]),
        }
    }
}

/// Bytes without a plan.
fn soup(random: &mut Random, longest: usize) -> Vec<u8> {
    let length = random.below(longest + 1);
    (0..length).map(|_| *random.one_of(TELLING)).collect()
}

/// Whether a name of the pool can stand without quotes.
fn is_shorthand(name: &str) -> bool {
    name.starts_with(|c: char| c.is_ascii_alphabetic() || c == '_' || !c.is_ascii())
        && name.chars().all(|c| c.is_ascii_alphanumeric() || c == '_' || !c.is_ascii())
}

/// A name as it can stand between these quotes: mostly each character as itself where that is
/// allowed, and now and then as an escape, by `\u` with digits of either case or by two bytes.
fn spelled(random: &mut Random, name: &str, quote: char) -> String {
    let with_escapes = random.once_in(4);
    let mut out = String::new();
    for character in name.chars() {
        let has_to = character < ' ' || character == quote || character == '\\';
        if !has_to && !(with_escapes && random.once_in(2)) {
            out.push(character);
            continue;
        }
        let short = match character {
            '\u{8}' => 'b',
            '\u{C}' => 'f',
            '\n' => 'n',
            '\r' => 'r',
            '\t' => 't',
            _ => character,
        };
        let has_short = has_to || character == '/';
        if has_short && random.once_in(2) {
            out.extend(['\\', short]);
            continue;
        }
        for unit in character.encode_utf16(&mut [0; 2]) {
            let digits = format!("{unit:04x}");
            let digits = if random.once_in(2) { digits.to_uppercase() } else { digits };
            out.push_str(&format!("\\u{digits}"));
        }
    }
    out
}

/// One step of the grammar.
fn step(random: &mut Random, names: Names, out: &mut Vec<u8>) {
    blanks(random, out);
    let deep = random.once_in(2);
    let name = random.one_of(names);
    let every = random.once_in(3);
    let positioned = !every && random.once_in(3);
    if random.once_in(2) && !positioned && (every || is_shorthand(name)) {
        out.extend(if deep { &b".."[..] } else { b"." });
        out.extend(if every { b"*" } else { name.as_bytes() });
        return;
    }
    out.extend(if deep { &b"..["[..] } else { b"[" });
    blanks(random, out);
    if every {
        out.push(b'*');
    } else if positioned {
        position(random, out);
    } else {
        let quote = if random.once_in(2) { '"' } else { '\'' };
        let written = spelled(random, name, quote);
        let wrong = if random.once_in(60) { *random.one_of(&WRONG_ESCAPES) } else { "" };
        out.extend(format!("{quote}{written}{wrong}{quote}").as_bytes());
    }
    blanks(random, out);
    out.push(b']');
}

/// A position: mostly one of the first, which small arrays have.
fn position(random: &mut Random, out: &mut Vec<u8>) {
    if random.once_in(12) {
        out.extend(random.one_of(&FAR_POSITIONS).as_bytes());
    } else {
        let most = *random.one_of(&[2, 2, 2, 4, 4, 40]);
        out.extend(random.below(most).to_string().as_bytes());
    }
}

/// A query of the grammar, or with a position or an escape that it does not have, with this many
/// steps.
fn query_of(random: &mut Random, names: Names, steps: usize) -> Vec<u8> {
    let mut query = b"$".to_vec();
    for _ in 0..steps {
        step(random, names, &mut query);
    }
    query
}

/// A query: mostly of few steps; some of about 16 steps, some of about 1,024 bytes; some damaged.
pub fn query(random: &mut Random, names: Names) -> Vec<u8> {
    let mut query = match random.below(40) {
        0 => query_of_about_1024_bytes(random, names),
        1 => soup(random, 12),
        2 | 3 => {
            let steps = random.between(15, 18);
            query_of(random, names, steps)
        }
        4..=9 => {
            let steps = random.between(4, 12);
            query_of(random, names, steps)
        }
        _ => {
            let steps = random.below(4);
            query_of(random, names, steps)
        }
    };
    if random.once_in(8) {
        damage(random, &mut query);
    }
    query
}

/// A query of 1,022 to 1,027 bytes, or of some more: blanks before the first step, or a long name;
/// half of them with a byte changed, mostly near the limit.
fn query_of_about_1024_bytes(random: &mut Random, names: Names) -> Vec<u8> {
    let longest = if random.once_in(4) { 3_000 } else { 1_027 };
    let length = random.between(1_022, longest);
    let steps = if random.once_in(4) { random.between(15, 17) } else { random.below(4) };
    let rest = query_of(random, names, steps).split_off(1);
    let (before, filling, after): (&[u8], u8, &[u8]) = match random.below(3) {
        0 => (b"$", b' ', b".a"),
        1 => (b"$..", b'a', b""),
        _ => (b"$['", b'x', b"']"),
    };
    let filled = length.saturating_sub(before.len() + after.len() + rest.len());
    let mut query = [before, vec![filling; filled].as_slice(), after, &rest].concat();
    if random.once_in(2) {
        let last = query.len() - 1;
        let place =
            if random.once_in(4) { random.below(last) } else { random.between(1_021, 1_026) };
        query[place.min(last)] = *random.one_of(TELLING);
    }
    query
}

/// How a record is written: how many values it may still have, and whether blanks stand in it.
struct Writer<'a> {
    random: &'a mut Random,
    out: Vec<u8>,
    values_left: usize,
    with_blanks: bool,
    names: Names,
}

/// The deepest that a tree of random shape goes; chains go deeper.
const TREE_LEVELS: usize = 12;

impl Writer<'_> {
    fn blanks(&mut self) {
        if self.with_blanks {
            blanks(self.random, &mut self.out);
        }
    }

    fn put(&mut self, text: &[u8]) {
        self.out.extend(text);
    }

    /// A value of random shape, with at most so many levels of containers.
    fn value(&mut self, levels: usize) {
        self.values_left = self.values_left.saturating_sub(1);
        let may_nest = levels > 0 && self.values_left > 0;
        match self.random.below(if may_nest { 15 } else { 4 }) {
            0 => self.number(),
            1 => self.string(),
            2 => self.put(b"[]"),
            3 => {
                let word = *self.random.one_of(&["true", "false", "null", "{}", "0"]);
                self.put(word.as_bytes());
            }
            _ => self.container(levels - 1),
        }
    }

    /// An object or an array, with at most so many levels of containers in it.
    fn container(&mut self, levels: usize) {
        if self.random.once_in(3) {
            self.array(levels);
        } else {
            self.object(levels);
        }
    }

    fn array(&mut self, levels: usize) {
        self.put(b"[");
        for index in 0..self.random.below(6) {
            if index > 0 {
                self.put(b",");
            }
            self.blanks();
            self.value(levels);
            self.blanks();
        }
        self.put(b"]");
    }

    fn object(&mut self, levels: usize) {
        self.put(b"{");
        for index in 0..self.random.below(6) {
            if index > 0 {
                self.put(b",");
            }
            self.name_and_colon();
            self.value(levels);
            self.blanks();
        }
        self.put(b"}");
    }

    fn name_and_colon(&mut self) {
        self.blanks();
        let name = if self.random.once_in(12) {
            self.random.one_of(&RECORD_NAMES).to_string()
        } else {
            let name = *self.random.one_of(self.names);
            spelled(self.random, name, '"')
        };
        self.put(format!("\"{name}\"").as_bytes());
        self.blanks();
        self.put(b":");
        self.blanks();
    }

    fn number(&mut self) {
        let whole = ["0", "-0", "7", "10", "-42", "9007199254740993", "12345678901234567890"];
        let whole = *self.random.one_of(&whole);
        let fraction = *self.random.one_of(&["", "", "", ".0", ".25", ".10"]);
        let exponent = *self.random.one_of(&["", "", "", "e5", "E+07", "e-0"]);
        self.put(format!("{whole}{fraction}{exponent}").as_bytes());
    }

    /// A string: short or long, with whole runs of backslashes among its parts.
    fn string(&mut self) {
        self.put(b"\"");
        let longest = *self.random.one_of(&[2, 2, 2, 2, 6, 6, 6, 40, 150]);
        for _ in 0..self.random.below(longest) {
            if self.random.once_in(10) {
                let run = 2 * self.random.below(40);
                self.put(&vec![b'\\'; run]);
            } else {
                let part = *self.random.one_of(&STRING_PARTS);
                self.put(part.as_bytes());
            }
        }
        self.put(b"\"");
    }

    /// An array of many values.
    fn many_values(&mut self) {
        self.values_left = 1_000;
        self.put(b"[");
        for _ in 0..self.random.between(5, 40) {
            self.value(TREE_LEVELS);
            self.put(b",");
        }
        self.put(b"0]");
    }

    /// An array with a value that begins near the end of the first or second block, after blanks
    /// or a string.
    fn value_at_edge(&mut self) {
        let edge = self.random.between(56, 68) + 64 * self.random.below(2);
        if self.random.once_in(2) {
            self.put(format!("[\"{}\",", "x".repeat(edge)).as_bytes());
        } else {
            self.put(format!("[{}", " ".repeat(edge)).as_bytes());
        }
        self.value(TREE_LEVELS);
        self.put(b"]");
    }

    /// An object with a container of any length in which no query name finds anything, between
    /// members that one may find.
    fn unwanted_container(&mut self) {
        self.put(b"{");
        self.name_and_colon();
        self.value(1);
        let opening = if self.random.once_in(2) { "[" } else { "{\"a\":[" };
        self.put(format!(",\"{NO_QUERY_NAME}\":{opening}").as_bytes());
        let padding = self.random.below(140);
        self.put(&vec![b' '; padding]);
        for _ in 0..self.random.below(8) {
            self.string();
            self.put(b",");
            self.values_left = 10;
            self.value(3);
            self.put(b",");
        }
        self.put(if opening == "[" { b"0]," } else { b"0]}," });
        self.name_and_colon();
        self.value(2);
        self.put(b"}");
    }

    /// Objects with many small containers, of which a query enters few: one is left soon after
    /// another, in the same block or over its edge.
    fn small_containers(&mut self) {
        self.put(b"[");
        for _ in 0..self.random.between(1, 4) {
            self.put(b"{");
            for _ in 0..self.random.below(12) {
                if self.random.once_in(3) {
                    self.name_and_colon();
                } else {
                    self.put(format!("\"{NO_QUERY_NAME}\":").as_bytes());
                }
                self.values_left = 3;
                self.container(2);
                self.blanks();
                self.put(b",");
            }
            self.name_and_colon();
            self.string();
            self.put(b"},");
        }
        self.put(b"0]");
    }

    /// A chain whose length is between these.
    fn chain_of(&mut self, fewest: usize, most: usize) {
        let levels = self.random.between(fewest, most);
        self.chain(levels);
    }

    /// Containers one inside the other down to this level, with values beside them, and a tree at
    /// the bottom.
    fn chain(&mut self, levels: usize) {
        let mut closing = Vec::new();
        let with_siblings = self.random.once_in(2);
        for _ in 0..levels {
            let array = self.random.once_in(4);
            self.put(if array { b"[" } else { b"{" });
            if with_siblings && self.random.once_in(8) {
                if !array {
                    self.name_and_colon();
                }
                self.value(1);
                self.put(b",");
            }
            if !array {
                self.name_and_colon();
            }
            closing.push(if array { b']' } else { b'}' });
        }
        self.value(1);
        for &byte in closing.iter().rev() {
            if with_siblings && self.random.once_in(30) {
                self.put(if byte == b']' { b",7" } else { b",\"a\":7" });
            }
            self.out.push(byte);
        }
    }
}

/// A record: mostly a small tree; some are larger, some chains of about 512 levels, some begin
/// near the edge of a block, some have many small containers, some are bytes without a plan; some
/// are damaged.
pub fn record(random: &mut Random, names: Names) -> Vec<u8> {
    let kind = random.below(40);
    if kind == 0 {
        return soup(random, 90);
    }
    let (values_left, with_blanks) = (random.between(1, 40), random.once_in(3));
    let mut writer = Writer { random, out: Vec::new(), values_left, with_blanks, names };
    writer.blanks();
    match kind {
        1 => writer.chain_of(508, 514),
        2..=4 => writer.chain_of(1, 60),
        5..=6 => writer.many_values(),
        7..=10 => writer.value_at_edge(),
        11..=14 => writer.unwanted_container(),
        15..=16 => writer.value(TREE_LEVELS),
        17..=20 => writer.small_containers(),
        _ => writer.container(TREE_LEVELS),
    }
    writer.blanks();
    let mut record = writer.out;
    if random.once_in(6) {
        damage(random, &mut record);
    }
    record
}

/// A list of this many numbers with old contents.
pub fn list(random: &mut Random, numbers: usize) -> Vec<u32> {
    (0..numbers).map(|_| random.bits() as u32).collect()
}

/// A buffer of this many bytes with old contents.
pub fn buffer(random: &mut Random, bytes: usize) -> Vec<u8> {
    let mut buffer = vec![0; bytes];
    for part in buffer.chunks_mut(8) {
        part.copy_from_slice(&random.bits().to_le_bytes()[..part.len()]);
    }
    buffer
}

/// Bytes for the block sorter, of up to two blocks: mostly quotes, backslashes and brackets.
pub fn block(random: &mut Random) -> Vec<u8> {
    let length = *random.one_of(&[0, 1, 2, 7, 8, 31, 32, 33, 62, 63, 64, 64, 64, 65, 100, 128]);
    let letters: &[u8] = match random.below(5) {
        0 => b"\\\\\\\\\\\\\\\"",
        1 => b"\"\\[]{}",
        2 => b"\"\\[]{}abcdefghijklmnopqrstuvwxyz",
        3 => b"[{]}\"",
        _ => TELLING,
    };
    if random.once_in(5) {
        return (0..length).map(|_| random.bits() as u8).collect();
    }
    (0..length).map(|_| *random.one_of(letters)).collect()
}
