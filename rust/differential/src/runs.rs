//! The runs: random cases, short inputs, blocks, records at the limit of length, frames at every depth,
//! piles as large as they get, paths at every depth and at the limits of a query, and nesting at its
//! limit on a small stack.

use crate::compare::{shown, shown_outcome};
use crate::{Comparison, Engine, Independent, Mismatch};
use oracle::{
    Answer, Bound, Value, Words, Written, MAX_FRAMES, MAX_LEVELS, MAX_QUERY, MAX_RECORD, MAX_STEPS,
};
use records::{cases, large, Random};
use std::thread;

/// Random queries and records, in number `cases`: both walks with the bound on the pile, the value
/// finder at a few offsets, and now and then the writer of a path at some, and the sorter over the whole
/// record.
pub fn random(comparison: &mut Comparison, seed: u64, cases: u64) -> Result<(), Mismatch> {
    let mut random = Random::new(seed);
    for _ in 0..cases {
        let names = cases::names(&mut random);
        let query = cases::query(&mut random, names);
        // The record is lent from any alignment.
        let shift = random.below(9);
        let mut buffer = vec![b'"'; shift];
        buffer.extend(cases::record(&mut random, names));
        // A text from 1,024 bytes on has a table of moves for its strings: blanks make some as long.
        if random.once_in(4) {
            buffer.resize(buffer.len() + 1_024, b' ');
        }
        let record = &buffer[shift..];
        comparison.lists(&mut random, &query, record)?;
        for offset in offsets(&mut random, record) {
            comparison.find(record, offset)?;
        }
        if random.once_in(6) {
            let [_, anywhere, _, past] = offsets(&mut random, record);
            let offset = *random.one_of(&[anywhere, past]);
            comparison.node_paths(&mut random, record, offset)?;
        }
        if random.once_in(8) {
            comparison.sorts(record)?;
        }
    }
    Ok(())
}

/// Offsets to find values at: where values may begin, at the end and past it.
fn offsets(random: &mut Random, record: &[u8]) -> [usize; 4] {
    let anywhere = random.below(record.len() + 1);
    let ahead = &record[anywhere..];
    let to_value = ahead.iter().position(|byte| b"[{\"0".contains(byte)).unwrap_or(0);
    let past = [record.len(), record.len() + 1, usize::MAX, anywhere + (1 << 32)];
    [0, anywhere, anywhere + to_value, *random.one_of(&past)]
}

/// The sample rows of document 01, and names of about a thousand bytes.
pub fn samples(comparison: &mut Comparison) -> Result<(), Mismatch> {
    let mut random = Random::new(0);
    let rows: [(&str, &str); 17] = [
        ("$", "7"),
        ("$.M", r#"{"M":1,"M":2}"#),
        ("$..a..b", r#"{"a":{"a":{"b":1}}}"#),
        ("$..*", "[3,[4]]"),
        ("$.*", "[3,[4]]"),
        ("$ ['a' ]", r#"{"a":[]}"#),
        ("$.lot", r#"{"x":"lot\":9}"}"#),
        ("", "7"),
        ("$.a ", "7"),
        ("$[00]", "7"),
        ("$[0]", r#"{"0":1}"#),
        ("$[2]", "[1,[2,3],4]"),
        ("$..[0]", "[[7]]"),
        ("$..[1]", "[[1,2],[3,4]]"),
        ("$", "[1,]"),
        ("$", "01"),
        ("$", "tru"),
    ];
    for (query, record) in rows {
        comparison.lists(&mut random, query.as_bytes(), record.as_bytes())?;
    }
    for length in [1_000, 1_021, 1_022, 1_023] {
        let name = "n".repeat(length);
        let (shorter, longer) = (&name[1..], format!("{name}n"));
        let other = format!("{shorter}m");
        let record = format!(r#"{{"{shorter}":1,"{name}":2,"{longer}":3,"{other}":4,"{name}":5}}"#);
        for query in [format!("$.{name}"), format!("$['{}']", &name[..length - 3])] {
            comparison.lists(&mut random, query.as_bytes(), record.as_bytes())?;
        }
    }
    Ok(())
}

/// Every record of at most two bytes, and every query of a `$` and at most two bytes.
pub fn short(comparison: &mut Comparison) -> Result<(), Mismatch> {
    let mut random = Random::new(0);
    let bytes = 0..=u8::MAX;
    let pairs = bytes.clone().flat_map(|first| bytes.clone().map(move |second| [first, second]));
    let pairs: Vec<[u8; 2]> = pairs.collect();
    let ones: Vec<[u8; 1]> = bytes.map(|byte| [byte]).collect();
    let all = pairs.iter().map(|pair| &pair[..]).chain(ones.iter().map(|one| &one[..]));
    for bytes in all.chain([&[][..]]) {
        comparison.lists(&mut random, b"$..*", bytes)?;
        comparison.find(bytes, 0)?;
        comparison.paths(&mut random, bytes, &[0])?;
        comparison.lists(&mut random, &[b"$", bytes].concat(), b"{\"a\":[7]}")?;
    }
    comparison.lists(&mut random, b"", b"7")
}

/// Random blocks, in number `cases`, each with every pair of carried facts.
pub fn blocks(comparison: &mut Comparison, seed: u64, cases: u64) -> Result<(), Mismatch> {
    let mut random = Random::new(seed);
    for _ in 0..cases {
        let block = cases::block(&mut random);
        for (inside, odd) in [(false, false), (false, true), (true, false), (true, true)] {
            comparison.sort(&block, inside, odd)?;
        }
    }
    Ok(())
}

/// Records of 16,777,216 bytes and of 16,777,217 on every call.
pub fn long(comparison: &mut Comparison) -> Result<(), Mismatch> {
    let mut random = Random::new(0);
    for length in [MAX_RECORD + 1, MAX_RECORD] {
        for record in long_records(length) {
            assert_eq!(record.len(), length);
            for query in [&b"$["[..], b"$.*", b"$..indices[*]"] {
                comparison.lists(&mut random, query, &record)?;
            }
            for offset in [1, length - 2, length - 1, usize::MAX] {
                comparison.find(&record, offset)?;
            }
            if record.ends_with(BEHIND_BLANKS) {
                comparison.paths(&mut random, &record, &[length - BEHIND_BLANKS.len()])?;
            }
            comparison.sort(&record, false, false)?;
            comparison.sort(&record[length - 10..], true, true)?;
        }
    }
    Ok(())
}

/// The bytes of the feed at the start of a long record; blanks fill it up.
const FEED: usize = 1_000_000;

/// The end of a long record, with a value whose path has names and a position.
const BEHIND_BLANKS: &[u8] = b"8]}}";

/// Records of exactly this many bytes: taken as far as the length goes, or not.
fn long_records(length: usize) -> Vec<Vec<u8>> {
    let filled = |start: &[u8], byte: u8, end: &[u8]| {
        let between = length - start.len() - end.len();
        [start, vec![byte; between].as_slice(), end].concat()
    };
    vec![
        filled(&large::feed(FEED), b' ', b""),
        filled(b"[\"", b'x', b"\",7]"),
        filled(b"{\"a\":{\"b\":[\"\\\"\",", b' ', BEHIND_BLANKS),
        filled(b"[1,", b'5', b"]"),
        filled(b"\"", b'x', b""),
        filled(b"[", b'[', b""),
        filled(b"", b' ', b""),
    ]
}

/// A frame at every depth that one can have, 1 to 511, and a frame 256 levels above a container that
/// has none: a walk that takes a frame for another container's goes on with the wrong marks, and takes
/// the `b` behind the container.
pub fn frames(comparison: &mut Comparison) -> Result<(), Mismatch> {
    let mut random = Random::new(0);
    for above in 0..=MAX_LEVELS - 2 {
        let record = nested(above, r#"{"a":{"b":7},"b":8}"#);
        comparison.lists(&mut random, b"$..a.b", record.as_bytes())?;
    }
    // 259 levels: the frame is that of the outermost array in the value of `a`, the container that
    // of `x`.
    let below = nested(255, r#"{"x":[7],"b":8}"#);
    for above in 0..=MAX_LEVELS - 259 {
        let record = nested(above, &format!(r#"{{"a":[{below}]}}"#));
        comparison.lists(&mut random, b"$..a.b", record.as_bytes())?;
    }
    Ok(())
}

/// The plain form of a step, the deep form, and the two ends of a container from which they take what is
/// in it.
const FORMS: [(&str, &str, &str, &str); 3] =
    [(".a", "..a", r#"{"a":"#, "}"), (".*", "..*", r#"{"b":"#, "}"), ("[0]", "..[0]", "[", "]")];

/// Piles as large as the steps of a query let them get, for every number of plain steps and of deep ones
/// behind them, with one container more than frames; and where a plain step stands behind a deep one, a
/// mark that comes and goes at every level, as far down as records are taken and one further.
pub fn piles(comparison: &mut Comparison) -> Result<(), Mismatch> {
    let mut random = Random::new(0);
    for (plain, deep) in (0..=MAX_STEPS).flat_map(|p| (0..=MAX_STEPS - p).map(move |d| (p, d))) {
        let frames = if deep > 0 { plain + deep - 1 } else { plain };
        for (plain_step, deep_step, opening, closing) in FORMS {
            let query = format!("${}{}", plain_step.repeat(plain), deep_step.repeat(deep));
            let record = format!("{}7{}", opening.repeat(frames + 1), closing.repeat(frames + 1));
            comparison.pile(query.as_bytes(), record.as_bytes(), frames as u32)?;
            comparison.lists(&mut random, query.as_bytes(), record.as_bytes())?;
        }
    }
    let in_turns = |levels: usize| {
        let opening = (0..levels).map(|level| [r#"{"a":"#, r#"{"b":"#][level % 2]);
        format!("{}7{}", opening.collect::<String>(), "}".repeat(levels))
    };
    comparison.pile(b"$..a.b", in_turns(MAX_LEVELS).as_bytes(), MAX_FRAMES)?;
    for levels in 1..=MAX_LEVELS + 1 {
        comparison.lists(&mut random, b"$..a.b", in_turns(levels).as_bytes())?;
    }
    Ok(())
}

/// What stands at each place of a long name: a single quote, a backslash, a control, an accented letter,
/// a surrogate pair and half of one.
const IN_NAMES: [&str; 6] = ["'", r"\\", r"\u001F", "é", r"\ud83d\ude00", r"\ud800"];

/// Paths at every depth, of 15 to 17 steps and of 1,022 to 1,026 bytes, these as queries too; with
/// positions of one to four digits; and with long names.
pub fn steps(comparison: &mut Comparison) -> Result<(), Mismatch> {
    let mut random = Random::new(0);
    for above in 0..=MAX_LEVELS - 3 {
        let record = nested(above, r#"{"a":[1,{"it's":7}]}"#);
        comparison.paths(&mut random, record.as_bytes(), &[above + 8, above + 16])?;
    }
    for steps in 15..=17 {
        let (path, record) = (format!("${}", "[0]".repeat(steps)), nested(steps, "7"));
        comparison.paths(&mut random, record.as_bytes(), &[steps])?;
        comparison.lists(&mut random, path.as_bytes(), record.as_bytes())?;
    }
    for length in 1_022..=1_026 {
        let name = "n".repeat(length - "$['']".len());
        let (path, record) = (format!("$['{name}']"), format!(r#"{{"{name}":7}}"#));
        comparison.paths(&mut random, record.as_bytes(), &[name.len() + 4])?;
        comparison.lists(&mut random, path.as_bytes(), record.as_bytes())?;
    }
    let record = format!("[{}0]", "0,".repeat(1_000));
    let positions = [0, 9, 10, 99, 100, 255, 256, 999, 1_000].map(|position| 2 * position + 1);
    comparison.paths(&mut random, record.as_bytes(), &positions)?;
    for length in 0..140 {
        for part in IN_NAMES {
            let name = format!("{}{part}nnn", "n".repeat(length));
            let record = format!(r#"{{"{name}":{{"b":7}}}}"#);
            comparison.paths(&mut random, record.as_bytes(), &[name.len() + 9])?;
        }
    }
    Ok(())
}

/// A value in so many arrays.
fn nested(arrays: usize, value: &str) -> String {
    format!("{}{value}{}", "[".repeat(arrays), "]".repeat(arrays))
}

/// A stack on which every call has to do at 512 levels of nesting.
pub const SMALL_STACK: usize = 384 * 1_024;

/// A call whose stack is of interest.
#[derive(Clone, Copy, PartialEq, Eq, Debug)]
pub enum DeepCall {
    Plain,
    Jumping,
    Find,
    Path,
    Bound,
    Sort,
}

/// These calls by name.
pub const DEEP_CALLS: [(&str, DeepCall); 6] = [
    ("list_plain", DeepCall::Plain),
    ("list_jumping", DeepCall::Jumping),
    ("find_value", DeepCall::Find),
    ("write_path", DeepCall::Path),
    ("bound_pile", DeepCall::Bound),
    ("sort_block", DeepCall::Sort),
];

/// One call on records of 512 levels, and of one more, with short queries and one of 16 steps and 1,024
/// bytes, on a thread with a stack of so many bytes. Expected answers are worked out elsewhere. A stack
/// that is too small ends the process.
pub fn deep(engine: &dyn Engine, call: DeepCall, stack: usize) -> Result<(), Mismatch> {
    let most_steps = format!("$..*{}..", "[0]".repeat(MAX_STEPS - 2));
    let longest = format!("{most_steps}{}", "a".repeat(MAX_QUERY - most_steps.len()));
    for levels in [MAX_LEVELS, MAX_LEVELS + 1] {
        for (opening, closing) in
            [("[", "]"), ("{\"a\":", "}"), ("{\"b\":[", "]}"), ("[{\"a\":", "}]")]
        {
            let per_round = opening.matches(['[', '{']).count();
            let (rounds, left) = (levels / per_round, levels % per_round);
            let record = format!(
                "{}{}7{}{}",
                "[".repeat(left),
                opening.repeat(rounds),
                closing.repeat(rounds),
                "]".repeat(left)
            );
            let innermost = record.find('7').unwrap_or(0);
            for query in ["$..*", "$..a..*", "$..b.*..a", "$.a.b", "$", &longest] {
                let (query, record) = (query.as_bytes(), record.as_bytes());
                on_small_stack(engine, call, stack, Lent { query, record, offset: innermost })?;
            }
        }
    }
    Ok(())
}

/// What a call answers.
#[derive(PartialEq, Debug)]
enum Outcome {
    List(Answer),
    Find(Value),
    /// And the buffer.
    Path(Written, Vec<u8>),
    Bound(Bound),
    Sort(Words),
}

/// What a call is made with: the value finder and the writer of a path are asked for the offset, the
/// bound on the pile for the query alone, the sorter for the first block.
#[derive(Clone, Copy)]
struct Lent<'a> {
    query: &'a [u8],
    record: &'a [u8],
    offset: usize,
}

impl DeepCall {
    fn make(self, engine: &dyn Engine, lent: Lent, list: &mut [u32]) -> Outcome {
        let Lent { query, record, offset } = lent;
        match self {
            DeepCall::Plain => Outcome::List(engine.list_plain(query, record, list)),
            DeepCall::Jumping => Outcome::List(engine.list_jumping(query, record, list)),
            DeepCall::Find => Outcome::Find(engine.find_value(record, offset)),
            DeepCall::Path => {
                let mut buffer = vec![b'.'; 6 * MAX_LEVELS];
                Outcome::Path(engine.write_path(record, offset, &mut buffer), buffer)
            }
            DeepCall::Bound => Outcome::Bound(engine.bound_pile(query)),
            DeepCall::Sort => Outcome::Sort(engine.sort_block(record, false, false)),
        }
    }
}

/// One call on a thread of its own.
fn on_small_stack(
    engine: &dyn Engine,
    call: DeepCall,
    stack: usize,
    lent: Lent,
) -> Result<(), Mismatch> {
    let mut wanted = vec![u32::MAX; 2 * MAX_LEVELS + 2];
    let mut list = wanted.clone();
    let expected = call.make(&Independent, lent, &mut wanted);
    let found = thread::scope(|scope| {
        let list = &mut list;
        let run = move || call.make(engine, lent, list);
        let thread = thread::Builder::new().stack_size(stack).spawn_scoped(scope, run);
        thread.expect("a thread can be made").join().expect("the call ends")
    });
    if found == expected && list == wanted {
        return Ok(());
    }
    Err(Mismatch {
        call: "a call on a small stack",
        lent: format!("{call:?} query {} record {}", shown(lent.query), shown(lent.record)),
        expected: shown_outcome(&format!("{expected:?}"), &wanted, &list, 0),
        found: shown_outcome(&format!("{found:?}"), &list, &wanted, 0),
    })
}
