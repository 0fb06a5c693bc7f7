//! One comparison of each call, and the count of what was compared.

use crate::Engine;
use oracle::{
    normalized_path, Answer, Bound, Node, NodePath, Picks, Refusal, Tree, Words, Written,
    MAX_QUERY, MAX_STEPS, NO_GROUND,
};
use records::{cases, Random};
use std::fmt;

/// What a call answered where something else was expected.
#[derive(Debug)]
pub struct Mismatch {
    pub call: &'static str,
    pub lent: String,
    pub expected: String,
    pub found: String,
}

impl fmt::Display for Mismatch {
    fn fmt(&self, out: &mut fmt::Formatter) -> fmt::Result {
        writeln!(out, "{} {}", self.call, self.lent)?;
        writeln!(out, "expected {}", self.expected)?;
        write!(out, "found    {}", self.found)
    }
}

/// The most bytes of an input that a mismatch shows.
const SHOWN: usize = 1_000;

/// Bytes for a person to read, and to paste into a test.
pub(crate) fn shown(bytes: &[u8]) -> String {
    let start = bytes[..bytes.len().min(SHOWN)].escape_ascii().to_string();
    if bytes.len() > SHOWN {
        return format!("b\"{start}\".. of {} bytes", bytes.len());
    }
    format!("b\"{start}\"")
}

/// The most numbers of a list, or bytes of a buffer, that a mismatch shows.
const SHOWN_NUMBERS: usize = 8;

/// The answer and the list from its first difference on; places count from the first number lent,
/// those before it are below 0.
pub(crate) fn shown_outcome<Number: PartialEq + fmt::Debug>(
    answer: &str,
    list: &[Number],
    other: &[Number],
    guards: usize,
) -> String {
    match (0..list.len()).find(|&place| list[place] != other[place]) {
        None => format!("{answer}, equal lists"),
        Some(place) => {
            let end = list.len().min(place + SHOWN_NUMBERS);
            let from = place as i64 - guards as i64;
            format!("{answer}, numbers from {from} on {:?}", &list[place..end])
        }
    }
}

/// How many calls were compared, by the ground that was expected of them.
#[derive(Clone, Default, Debug, PartialEq, Eq)]
pub struct Counts {
    pub lists: [u64; 9],
    pub finds: [u64; 9],
    pub paths: [u64; 11],
    /// Paths that were run as queries.
    pub queries: u64,
    pub bounds: [u64; 4],
    /// Of the bounds without a refusal: those of queries whose steps give none.
    pub unbounded: u64,
    /// Walks whose peak is all the frames of the bound, one or more.
    pub reached: u64,
    pub sorts: u64,
    pub highest_peak: u32,
}

impl fmt::Display for Counts {
    fn fmt(&self, out: &mut fmt::Formatter) -> fmt::Result {
        writeln!(out, "lists by ground 0 to 8: {:?}", self.lists)?;
        writeln!(out, "finds by ground 0 to 8: {:?}", self.finds)?;
        writeln!(out, "paths by ground 0 to 10: {:?}", self.paths)?;
        writeln!(out, "paths as queries: {}", self.queries)?;
        write!(out, "bounds by ground 0 to 3: {:?}, ", self.bounds)?;
        writeln!(out, "not by steps: {}, reached: {}", self.unbounded, self.reached)?;
        write!(out, "sorts: {}, highest peak: {}", self.sorts, self.highest_peak)
    }
}

/// Numbers on both sides of a lent list, and bytes on both sides of a lent buffer, which no call may
/// touch.
const GUARDS: usize = 2;

/// The two walks, by the names of their calls.
const WALKS: [&str; 2] = ["list_plain", "list_jumping"];

/// An engine that is being compared.
pub struct Comparison<'a> {
    pub engine: &'a dyn Engine,
    pub counts: Counts,
}

impl<'a> Comparison<'a> {
    pub fn new(engine: &'a dyn Engine) -> Comparison<'a> {
        Comparison { engine, counts: Counts::default() }
    }

    /// One of the two walks.
    fn walk(&self, call: &str, query: &[u8], record: &[u8], list: &mut [u32]) -> Answer {
        match call {
            "list_plain" => self.engine.list_plain(query, record, list),
            _ => self.engine.list_jumping(query, record, list),
        }
    }

    /// Both walks on a query and a record: the list just long enough, and one other length near it
    /// or near none, with old numbers in it. And the bound on the pile, which no peak may exceed.
    pub fn lists(
        &mut self,
        random: &mut Random,
        query: &[u8],
        record: &[u8],
    ) -> Result<(), Mismatch> {
        let bound = self.bound(query)?;
        let expected = oracle::picks(query, record);
        let exact = expected.as_ref().map_or(2, |picks| 2 * picks.pairs.len());
        let shorter = exact.saturating_sub(random.between(1, 3));
        let other = [0, 1, 2, 3, shorter, shorter, exact + 1, exact + random.below(70)];
        let other = *random.one_of(&other);
        for length in [exact, other] {
            let old = cases::list(random, length + 2 * GUARDS);
            self.list(&expected, &bound, query, record, &old)?;
        }
        Ok(())
    }

    /// Both walks on equal lists; the first and the last numbers of `old` are not lent.
    fn list(
        &mut self,
        expected: &Result<Picks, Refusal>,
        bound: &Bound,
        query: &[u8],
        record: &[u8],
        old: &[u32],
    ) -> Result<(), Mismatch> {
        let lent = GUARDS..old.len() - GUARDS;
        let mut wanted = old.to_vec();
        let answer = match expected {
            Ok(picks) => picks.write(&mut wanted[lent.clone()]),
            Err(Refusal { ground, place }) => {
                Answer { ground: *ground, place: *place as u32, pairs: 0, peak: 0 }
            }
        };
        for call in WALKS {
            let mut numbers = old.to_vec();
            let found = self.walk(call, query, record, &mut numbers[lent.clone()]);
            self.peak(call, query, record, &found, bound)?;
            if found != answer || numbers != wanted {
                let length = lent.len();
                let (query, record) = (shown(query), shown(record));
                return Err(Mismatch {
                    call,
                    lent: format!("query {query} record {record} list of {length}"),
                    expected: shown_outcome(&format!("{answer:?}"), &wanted, &numbers, GUARDS),
                    found: shown_outcome(&format!("{found:?}"), &numbers, &wanted, GUARDS),
                });
            }
            self.counts.lists[answer.ground as usize] += 1;
            self.counts.highest_peak = self.counts.highest_peak.max(answer.peak);
        }
        Ok(())
    }

    /// What a walk answers against the engine's own bound on the pile.
    fn peak(
        &mut self,
        call: &'static str,
        query: &[u8],
        record: &[u8],
        answer: &Answer,
        bound: &Bound,
    ) -> Result<(), Mismatch> {
        if answer.peak > bound.frames {
            return Err(Mismatch {
                call,
                lent: format!("query {} record {}", shown(query), shown(record)),
                expected: format!("a peak of at most {} frames", bound.frames),
                found: format!("{answer:?}"),
            });
        }
        self.counts.reached += u64::from(answer.peak > 0 && answer.peak == bound.frames);
        Ok(())
    }

    /// The bound on the pile of a query; gives back the engine's own.
    fn bound(&mut self, query: &[u8]) -> Result<Bound, Mismatch> {
        let expected = oracle::bound_pile(query);
        let found = self.engine.bound_pile(query);
        if found != expected {
            return Err(Mismatch {
                call: "bound_pile",
                lent: format!("query {}", shown(query)),
                expected: format!("{expected:?}"),
                found: format!("{found:?}"),
            });
        }
        self.counts.bounds[expected.ground as usize] += 1;
        self.counts.unbounded += u64::from(expected.ground == NO_GROUND && !expected.bounded);
        Ok(found)
    }

    /// Both walks on a query and a record in which the pile comes to so many frames, which no record
    /// exceeds: the same peak, the same bound.
    pub fn pile(&mut self, query: &[u8], record: &[u8], frames: u32) -> Result<(), Mismatch> {
        let bound = self.bound(query)?;
        for call in WALKS {
            // Room for every node: no value of n bytes has more than (n + 1) / 2.
            let answer = self.walk(call, query, record, &mut vec![0; record.len() + 1]);
            self.peak(call, query, record, &answer, &bound)?;
            if (answer.ground, answer.peak, bound.frames) != (NO_GROUND, frames, frames) {
                return Err(Mismatch {
                    call,
                    lent: format!("query {} record {}", shown(query), shown(record)),
                    expected: format!("a peak of {frames} frames, and no higher bound"),
                    found: format!("{answer:?}, {bound:?}"),
                });
            }
        }
        Ok(())
    }

    /// The value finder at one offset.
    pub fn find(&mut self, record: &[u8], offset: usize) -> Result<(), Mismatch> {
        let expected = oracle::find_value(record, offset);
        let found = self.engine.find_value(record, offset);
        if found != expected {
            return Err(Mismatch {
                call: "find_value",
                lent: format!("record {} offset {offset}", shown(record)),
                expected: format!("{expected:?}"),
                found: format!("{found:?}"),
            });
        }
        self.counts.finds[expected.ground as usize] += 1;
        Ok(())
    }

    /// The writer of a path at these offsets.
    pub fn paths(
        &mut self,
        random: &mut Random,
        record: &[u8],
        offsets: &[usize],
    ) -> Result<(), Mismatch> {
        let tree = oracle::taken_tree(record);
        offsets.iter().try_for_each(|&offset| self.path(random, record, tree.as_ref(), offset))
    }

    /// The writer of a path at this offset and, if the record is taken, at the first byte of a node; now
    /// and then a path as a query.
    pub fn node_paths(
        &mut self,
        random: &mut Random,
        record: &[u8],
        offset: usize,
    ) -> Result<(), Mismatch> {
        let tree = oracle::taken_tree(record);
        self.path(random, record, tree.as_ref(), offset)?;
        let Ok(tree) = tree else {
            return Ok(());
        };
        let node = random.one_of(&tree.nodes);
        self.path(random, record, Ok(&tree), node.start as usize)?;
        if random.once_in(2) {
            self.path_as_query(record, &tree, node)?;
        }
        Ok(())
    }

    /// The writer of a path at one offset of a record with this tree: the buffer just long enough, one
    /// byte short, and longer or empty, with old bytes in it; one of any length where there is no path.
    fn path(
        &mut self,
        random: &mut Random,
        record: &[u8],
        tree: Result<&Tree, &Refusal>,
        offset: usize,
    ) -> Result<(), Mismatch> {
        let expected = match tree {
            Ok(tree) => oracle::path_in(record, tree, offset),
            Err(refusal) => Err(*refusal),
        };
        let lengths = match expected.as_ref().map(|path| path.text.len()) {
            Ok(exact) => vec![exact, exact - 1, *random.one_of(&[0, exact + 1, exact + 70])],
            Err(_) => vec![*random.one_of(&[0, 1, 9, 70])],
        };
        for length in lengths {
            let old = cases::buffer(random, length + 2 * GUARDS);
            self.write_path(&expected, record, offset, &old)?;
        }
        Ok(())
    }

    /// The writer of a path with one buffer; the first and the last bytes of `old` are not lent.
    fn write_path(
        &mut self,
        expected: &Result<NodePath, Refusal>,
        record: &[u8],
        offset: usize,
        old: &[u8],
    ) -> Result<(), Mismatch> {
        let lent = GUARDS..old.len() - GUARDS;
        let mut wanted = old.to_vec();
        let answer = match expected {
            Ok(path) => path.write(&mut wanted[lent.clone()]),
            Err(Refusal { ground, place }) => Written { ground: *ground, place: *place, length: 0 },
        };
        let mut buffer = old.to_vec();
        let found = self.engine.write_path(record, offset, &mut buffer[lent.clone()]);
        if found != answer || buffer != wanted {
            let length = lent.len();
            return Err(Mismatch {
                call: "write_path",
                lent: format!("record {} offset {offset} buffer of {length}", shown(record)),
                expected: shown_outcome(&format!("{answer:?}"), &wanted, &buffer, GUARDS),
                found: shown_outcome(&format!("{found:?}"), &buffer, &wanted, GUARDS),
            });
        }
        self.counts.paths[answer.ground as usize] += 1;
        Ok(())
    }

    /// The path of a node as a query through both walks, if it has at most 16 steps and 1,024 bytes: it
    /// picks out exactly the nodes whose path is equal.
    fn path_as_query(&mut self, record: &[u8], tree: &Tree, node: &Node) -> Result<(), Mismatch> {
        let Ok(path) = normalized_path(record, tree, node) else {
            return Ok(());
        };
        if path.len() > MAX_QUERY || level(tree, node) > MAX_STEPS {
            return Ok(());
        }
        let is_equal = |other: &&Node| normalized_path(record, tree, other).as_ref() == Ok(&path);
        let equal = tree.nodes.iter().filter(is_equal);
        let wanted: Vec<u32> = equal.flat_map(|node| [node.start, node.end]).collect();
        let pairs = wanted.len() as u32 / 2;
        for call in WALKS {
            let mut list = vec![0; wanted.len()];
            let found = self.walk(call, path.as_bytes(), record, &mut list);
            if (found.ground, found.place, found.pairs) != (NO_GROUND, 0, pairs) || list != wanted {
                let (path, record) = (shown(path.as_bytes()), shown(record));
                return Err(Mismatch {
                    call,
                    lent: format!("a path as the query {path} record {record}"),
                    expected: shown_outcome(&format!("{pairs} nodes"), &wanted, &list, 0),
                    found: shown_outcome(&format!("{found:?}"), &list, &wanted, 0),
                });
            }
        }
        self.counts.queries += 1;
        Ok(())
    }

    /// The block sorter on the first block of the rest; gives back the words.
    pub fn sort(&mut self, rest: &[u8], inside: bool, odd: bool) -> Result<Words, Mismatch> {
        let expected = oracle::sort_block(rest, inside, odd);
        let found = self.engine.sort_block(rest, inside, odd);
        if found != expected {
            return Err(Mismatch {
                call: "sort_block",
                lent: format!("rest {} inside {inside} odd {odd}", shown(rest)),
                expected: format!("{expected:x?}"),
                found: format!("{found:x?}"),
            });
        }
        self.counts.sorts += 1;
        Ok(expected)
    }

    /// The block sorter over a whole record, block by block, from both facts false.
    pub fn sorts(&mut self, record: &[u8]) -> Result<(), Mismatch> {
        let (mut inside, mut odd) = (false, false);
        for start in (0..record.len()).step_by(oracle::BLOCK) {
            let words = self.sort(&record[start..], inside, odd)?;
            (inside, odd) = (words.inside, words.odd);
        }
        Ok(())
    }
}

/// How many nodes stand above a node.
fn level(tree: &Tree, node: &Node) -> usize {
    node.parent.map_or(0, |parent| 1 + level(tree, &tree.nodes[parent as usize]))
}
