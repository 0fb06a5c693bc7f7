//! JSONPath on JSON records, each answer proved.
//!
//! A query (a part of [RFC 9535](https://www.rfc-editor.org/rfc/rfc9535)) and a record
//! ([RFC 8259](https://www.rfc-editor.org/rfc/rfc8259) in UTF-8) are lent as bytes. [`list`] gives
//! back where in the record the nodes stand that the query picks out, or a [`Refusal`] that says
//! why not and where. Nothing of the record is copied.
//!
//! ```
//! let record = br#"{"a": {"lot": 1}, "lot": [2, 3]}"#;
//! let matches = woodcrock::list(b"$..lot", record)?;
//! assert_eq!(matches.len(), 2);
//! assert!(matches.ranges().eq([14..15, 25..31]));
//! assert!(matches.values().eq([&b"1"[..], b"[2, 3]"]));
//! # Ok::<(), woodcrock::Refusal>(())
//! ```
//!
//! A query is `$` and then up to 16 steps: `.name`, `.*`, `['name']`, `["name"]`, `[*]` and `[2]` take
//! from the node itself; with two dots, `..name`, `..*`, `..['name']`, `..[*]` and `..[2]`, a step takes
//! from the node and from every node below it. Each node is listed once, and the first bytes rise.
//! Members that repeat a name all match. A position is that of an element of an array, counted from
//! 0, at most [`MAX_POSITION`]; an object has none.
//!
//! ```
//! let lots = br#"[["A-11", "A-12", "A-13"], ["B-3"]]"#;
//! assert!(woodcrock::list(b"$[0][2]", lots)?.values().eq([&b"\"A-13\""[..]]));
//! assert!(woodcrock::list(b"$..[0]", lots)?.ranges().eq([1..25, 2..8, 28..33]));
//! # Ok::<(), woodcrock::Refusal>(())
//! ```
//!
//! Names are equal if their code points are, however they are written. A quoted name takes the escapes
//! of RFC 9535: `\b`, `\t`, `\n`, `\f`, `\r`, `\/`, `\\`, its own quote, and `\u` with four hexadecimal
//! digits, where the halves of a surrogate pair stand together. A name in the record with half of a
//! pair alone equals no name of a query.
//!
//! ```
//! let record = br#"{"gr\u00f6\u00dfe": 7, "\ud83d\ude00": 8, "\ud83d": 9}"#;
//! assert!(woodcrock::list("$.größe".as_bytes(), record)?.values().eq([b"7"]));
//! assert!(woodcrock::list("$['😀']".as_bytes(), record)?.values().eq([b"8"]));
//! assert!(woodcrock::list(br"$['\uD83D\uDE00']", record)?.values().eq([b"8"]));
//! # Ok::<(), woodcrock::Refusal>(())
//! ```
//!
//! From a node's first byte [`path_at`] gives its path, the normalized path of RFC 9535: where in the
//! record it stands by names and positions. Members that repeat a name have the same path. A path of
//! up to 16 steps and 1,024 bytes is a query that picks out exactly the nodes that have it.
//!
//! ```
//! let record = br#"{"blend": [{"grower's lot": 1}, {"grower's lot": 2}]}"#;
//! let second = woodcrock::list(b"$.blend[1].*", record)?.ranges().next().unwrap();
//! let path = woodcrock::path_at(record, second.start)?;
//! assert_eq!(path, r"$['blend'][1]['grower\'s lot']");
//! assert!(woodcrock::list(path.as_bytes(), record)?.ranges().eq([second]));
//! # Ok::<(), woodcrock::Refusal>(())
//! ```
//!
//! [`Matches::peak`] is the most frames that were on the pile at once. [`bound_pile`] says by the query
//! alone how many there can be, in whatever record, so that memory for frames can be sized from it.
//!
//! ```
//! assert_eq!(woodcrock::bound_pile(b"$.blend[0]..lot")?, Some(2));
//! let record = br#"{"blend": [{"grower": {"lot": 1}}]}"#;
//! assert_eq!(woodcrock::list(b"$.blend[0]..lot", record)?.peak(), 2);
//! # Ok::<(), woodcrock::Refusal>(())
//! ```
//!
//! The calls are those of the static library `libwoodcrock_c.a`, which is proved to answer so for
//! all bytes. Its C declarations ([`sys`]) owe it pointers of the stated lengths, an aligned list and
//! no overlap; slices and borrows are that, so that no call of the functions here can break it. They
//! use no memory but their stack, and [`list`] and [`path_at`] take memory for what they give back.

mod matches;
mod refusal;
pub mod sys;

pub use matches::{Matches, Ranges, Values};
pub use refusal::{Ground, Refusal};
pub use sys::Words;

/// The most bytes of a query that is taken.
pub const MAX_QUERY: usize = 1_024;
/// The most steps of a query that is taken.
pub const MAX_STEPS: usize = 16;
/// The largest position that a query may ask for.
pub const MAX_POSITION: u64 = 9_007_199_254_740_991;
/// The most bytes of a record that is taken.
pub const MAX_RECORD: usize = 16_777_216;
/// The deepest level of nesting in a record that is taken.
pub const MAX_LEVELS: usize = 512;
/// The most frames that a pile can come to, whatever the query: one for each level below that of the
/// root, in a record of [`MAX_LEVELS`] levels.
pub const MAX_FRAMES: u32 = 511;
/// The most bytes of a block.
pub const BLOCK: usize = 64;

/// A way through the record. Both give the same answers and leave the same list.
#[derive(Clone, Copy, PartialEq, Eq, Hash, Default, Debug)]
pub enum Walk {
    /// Enters every container.
    Plain,
    /// Goes straight to the end of a container in which nothing can match.
    #[default]
    Jumping,
}

/// What a lister answers without a refusal.
#[derive(Clone, Copy, PartialEq, Eq, Hash, Debug)]
pub struct Listed {
    /// How many pairs were written: how many nodes are picked out.
    pub pairs: usize,
    /// See [`Matches::peak`].
    pub peak: u32,
}

/// A list has at first a pair for so many bytes of the record, and so many pairs more.
const BYTES_TO_A_PAIR: usize = 8;
const MORE_PAIRS: usize = 16;
/// How many times as long a list gets that was too short. No value of n bytes has more than
/// (n + 1) / 2 nodes, so that once is enough.
const GROWTH: usize = 4;

/// A path has room for so many bytes at first: room for the longest one of a long record slows the call
/// down.
const SHORT_PATH: usize = 256;
/// A path has at most so many bytes for each byte of the record. Each of its steps has at most twice as
/// many as the step's container has around the value: `['']` for `{"":}`, and two for each byte of the
/// name, since a single quote gets one more; `[0]` for `[]`, and at most a digit more for each element
/// before it. The `$` stands for the node itself.
const PATH_BYTES_TO_A_BYTE: usize = 2;

impl Walk {
    /// Lists the nodes that a query picks out of a record.
    ///
    /// The list is as long as it has to be: a call that finds it too short is made again with a
    /// longer one, so that [`Ground::ListFull`] never comes back.
    ///
    /// ```
    /// use woodcrock::{Ground, Refusal, Walk};
    ///
    /// let matches = Walk::Plain.list(b"$.*", b"[3,[4]]")?;
    /// assert!(matches.values().eq([&b"3"[..], b"[4]"]));
    /// let refusal = Walk::Plain.list(b"$[00]", b"[3,[4]]").unwrap_err();
    /// assert_eq!(refusal, Refusal { ground: Ground::QueryMalformed, place: 3 });
    /// # Ok::<(), Refusal>(())
    /// ```
    pub fn list<'record>(
        self,
        query: &[u8],
        record: &'record [u8],
    ) -> Result<Matches<'record>, Refusal> {
        let taken = record.len().min(MAX_RECORD);
        let mut length = 2 * (taken / BYTES_TO_A_PAIR + MORE_PAIRS);
        loop {
            // Memory that is asked for as zeros is not touched before something is written there.
            let mut numbers = vec![0; length];
            match self.list_into(query, record, &mut numbers) {
                Err(Refusal { ground: Ground::ListFull, .. }) => length *= GROWTH,
                Err(refusal) => return Err(refusal),
                Ok(Listed { pairs, peak }) => {
                    numbers.truncate(2 * pairs);
                    numbers.shrink_to_fit();
                    return Ok(Matches { record, numbers, peak });
                }
            }
        }
    }

    /// Lists the nodes that a query picks out of a record into a list that is lent: two numbers to
    /// a node, its first byte and the byte after its last.
    ///
    /// On [`Ground::ListFull`] the list holds as many nodes as it has pairs. On any other refusal
    /// nothing is written. Numbers beyond the pairs written, and an odd last one, keep what they
    /// held. [`Ranges::of`] reads such a list.
    ///
    /// ```
    /// use woodcrock::{Ground, Listed, Ranges, Refusal, Walk};
    ///
    /// let mut list = [7; 5];
    /// let listed = Walk::Jumping.list_into(b"$.*", b"[3,[4]]", &mut list)?;
    /// assert_eq!(listed, Listed { pairs: 2, peak: 1 });
    /// assert_eq!(list, [1, 2, 3, 6, 7]);
    /// assert!(Ranges::of(&list[..2 * listed.pairs]).eq([1..2, 3..6]));
    ///
    /// let mut list = [7; 3];
    /// let refusal = Walk::Jumping.list_into(b"$.*", b"[3,[4]]", &mut list).unwrap_err();
    /// assert_eq!(refusal, Refusal { ground: Ground::ListFull, place: 3 });
    /// assert_eq!(list, [1, 2, 7]);
    /// # Ok::<(), Refusal>(())
    /// ```
    pub fn list_into(
        self,
        query: &[u8],
        record: &[u8],
        list: &mut [u32],
    ) -> Result<Listed, Refusal> {
        let lister: sys::Lister = match self {
            Walk::Plain => sys::woodcrock_list_plain,
            Walk::Jumping => sys::woodcrock_list_jumping,
        };
        // SAFETY: each pointer is that of a slice, which is aligned, of that length and lives
        // through the call; `list` is borrowed mutably, so that it overlaps neither of the others.
        let answer = unsafe {
            lister(
                query.as_ptr(),
                query.len(),
                record.as_ptr(),
                record.len(),
                list.as_mut_ptr(),
                list.len(),
            )
        };
        Refusal::check(answer.ground, answer.place as usize)?;
        Ok(Listed { pairs: answer.pairs as usize, peak: answer.peak })
    }
}

/// Lists the nodes that a query picks out of a record, by the jumping walk: [`Walk::list`].
///
/// ```
/// let record = br#"{"M":1,"M":2}"#;
/// let ranges: Vec<_> = woodcrock::list(b"$.M", record)?.ranges().collect();
/// assert_eq!(ranges, [5..6, 11..12]);
///
/// let refusal = woodcrock::list(b"$", b"[1,]").unwrap_err();
/// assert_eq!((refusal.ground.number(), refusal.place), (5, 3));
/// # Ok::<(), woodcrock::Refusal>(())
/// ```
pub fn list<'record>(query: &[u8], record: &'record [u8]) -> Result<Matches<'record>, Refusal> {
    Walk::default().list(query, record)
}

/// Lists the nodes that a query picks out of a record into a list that is lent, by the jumping
/// walk: [`Walk::list_into`].
///
/// ```
/// let mut list = [0; 2];
/// let listed = woodcrock::list_into(b"$ ['a' ]", br#"{"a":[]}"#, &mut list)?;
/// assert_eq!((listed.pairs, list), (1, [5, 7]));
/// # Ok::<(), woodcrock::Refusal>(())
/// ```
pub fn list_into(query: &[u8], record: &[u8], list: &mut [u32]) -> Result<Listed, Refusal> {
    Walk::default().list_into(query, record, list)
}

/// The end of the value whose first byte stands at `offset`: the byte after its last.
///
/// ```
/// use woodcrock::{find_value, Ground};
///
/// let record = br#"{"a": [1, 2]}"#;
/// assert_eq!(find_value(record, 6), Ok(12));
/// assert_eq!(find_value(record, 1).unwrap_err().ground, Ground::NoValueThere);
/// ```
pub fn find_value(record: &[u8], offset: usize) -> Result<usize, Refusal> {
    // SAFETY: pointer and length are those of a slice that lives through the call.
    let value = unsafe { sys::woodcrock_find_value(record.as_ptr(), record.len(), offset) };
    Refusal::check(value.ground, value.place)?;
    Ok(value.end)
}

/// The value whose first byte stands at `offset`, as it is written in the record.
///
/// ```
/// use woodcrock::{value_at, Ground, Refusal};
///
/// let record = br#"{"a": [1, 2]}"#;
/// assert_eq!(value_at(record, 6), Ok(&b"[1, 2]"[..]));
/// assert_eq!(value_at(record, 13), Err(Refusal { ground: Ground::NoValueThere, place: 13 }));
/// ```
pub fn value_at(record: &[u8], offset: usize) -> Result<&[u8], Refusal> {
    find_value(record, offset).map(|end| &record[offset..end])
}

/// Writes the path of the node whose first byte stands at `offset` to the start of a buffer that is
/// lent, and gives back its length.
///
/// It is the normalized path of RFC 9535, section 2.7, in UTF-8: `$`, and then the position as in `[0]`
/// or the name as in `['lot']` of each node on the way from the root down to and with this one. In a
/// name a single quote and a backslash have a backslash before them, the controls below 20
/// (hexadecimal) are `\b`, `\t`, `\n`, `\f`, `\r` or `\u00` and two digits in lower case, and all else
/// is itself.
///
/// The bytes beyond the path keep what they held, and on a refusal all of them. Twice as many bytes as
/// the record has are enough for each of its paths. Every call checks the whole record.
///
/// ```
/// use woodcrock::{write_path, Ground, Refusal};
///
/// let record = br#"{"blend": [{"lot": 1}]}"#;
/// let mut buffer = [b'.'; 24];
/// let length = write_path(record, 19, &mut buffer)?;
/// assert_eq!(&buffer[..length], b"$['blend'][0]['lot']");
/// assert_eq!(&buffer[length..], b"....");
///
/// let refusal = write_path(record, 19, &mut buffer[..19]).unwrap_err();
/// assert_eq!(refusal, Refusal { ground: Ground::PathTooLong, place: 19 });
/// # Ok::<(), Refusal>(())
/// ```
pub fn write_path(record: &[u8], offset: usize, buffer: &mut [u8]) -> Result<usize, Refusal> {
    // SAFETY: pointers and lengths are those of slices that live through the call; `buffer` is
    // borrowed mutably, so that it does not overlap the record.
    let written = unsafe {
        sys::woodcrock_write_path(
            record.as_ptr(),
            record.len(),
            offset,
            buffer.as_mut_ptr(),
            buffer.len(),
        )
    };
    Refusal::check(written.ground, written.place)?;
    Ok(written.length)
}

/// The path of the node whose first byte stands at `offset`: what [`write_path`] writes.
///
/// The buffer is as long as it has to be: a call that finds it too short is made again with one that no
/// path of the record exceeds, so that [`Ground::PathTooLong`] never comes back.
///
/// ```
/// use woodcrock::{path_at, Ground, Refusal};
///
/// let record = br#"{"lot": [1, 2], "\ud800": [3]}"#;
/// assert_eq!(path_at(record, 12)?, "$['lot'][1]");
/// let refusal = path_at(record, 27).unwrap_err();
/// assert_eq!(refusal, Refusal { ground: Ground::HalfInName, place: 16 });
/// # Ok::<(), Refusal>(())
/// ```
pub fn path_at(record: &[u8], offset: usize) -> Result<String, Refusal> {
    let mut buffer = vec![0; SHORT_PATH];
    let mut written = write_path(record, offset, &mut buffer);
    if matches!(written, Err(Refusal { ground: Ground::PathTooLong, .. })) {
        buffer = vec![0; PATH_BYTES_TO_A_BYTE * record.len()];
        written = write_path(record, offset, &mut buffer);
    }
    buffer.truncate(written?);
    buffer.shrink_to_fit();
    Ok(String::from_utf8(buffer).expect("a path is UTF-8"))
}

/// The most frames that the pile of a query can come to, in whatever record, by the steps of the query
/// alone; `None` where they give no bound. The [`peak`](Matches::peak) of either walk is at most that,
/// and without a bound at most [`MAX_FRAMES`].
///
/// Names, `*` and positions count alike:
/// - plain steps only, or no step: as many frames as steps;
/// - plain steps, or none, and then one or more deep ones: one frame fewer than steps;
/// - a plain step somewhere behind a deep one: no bound. A mark may come and go at every level.
///
/// A query is refused as [`list`] refuses it. The stack that a call takes does not go by the bound.
///
/// ```
/// use woodcrock::{bound_pile, list, Ground, Refusal, MAX_FRAMES};
///
/// let record = br#"{"a": {"a": {"a": {}}}}"#;
/// assert_eq!((bound_pile(b"$.a.a")?, list(b"$.a.a", record)?.peak()), (Some(2), 2));
/// assert_eq!((bound_pile(b"$.a.a..a")?, list(b"$.a.a..a", record)?.peak()), (Some(2), 2));
/// assert_eq!((bound_pile(b"$..a..b")?, list(b"$..a..b", record)?.peak()), (Some(1), 1));
///
/// assert_eq!(bound_pile(b"$..a.b")?, None);
/// let in_turns = [r#"{"a":{"b":"#.repeat(256), "7".to_string(), "}".repeat(512)].concat();
/// assert_eq!(list(b"$..a.b", in_turns.as_bytes())?.peak(), MAX_FRAMES);
///
/// let refusal = bound_pile(b"$..a.").unwrap_err();
/// assert_eq!(refusal, Refusal { ground: Ground::QueryMalformed, place: 5 });
/// # Ok::<(), Refusal>(())
/// ```
pub fn bound_pile(query: &[u8]) -> Result<Option<u32>, Refusal> {
    // SAFETY: pointer and length are those of a slice that lives through the call.
    let bound = unsafe { sys::woodcrock_bound_pile(query.as_ptr(), query.len()) };
    Refusal::check(bound.ground, bound.place)?;
    Ok(bound.bounded.then_some(bound.frames))
}

/// Sorts one block, the first [`BLOCK`] bytes of `rest` or fewer if it has fewer, into words of
/// bits.
///
/// `inside` counts as one real quote before the block, `odd` as one backslash just before it. Both
/// are false at the start of a record; after that they are the two facts of the block before. An
/// empty `rest` gives four words of 0 and both facts back. No bytes are refused.
///
/// ```
/// let words = woodcrock::sort_block(br#"["a]"]"#, false, false);
/// assert_eq!((words.quotes, words.strings), (0b010010, 0b001110));
/// assert_eq!((words.opening, words.closing), (0b000001, 0b100000));
/// assert!(!words.inside && !words.odd);
/// ```
pub fn sort_block(rest: &[u8], inside: bool, odd: bool) -> Words {
    // SAFETY: pointer and length are those of a slice that lives through the call, and a `bool` is
    // 0 or 1.
    unsafe { sys::woodcrock_sort_block(rest.as_ptr(), rest.len(), inside, odd) }
}
