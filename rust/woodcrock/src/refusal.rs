//! Why a call refuses, and where.

use crate::{MAX_LEVELS, MAX_STEPS};
use std::error::Error;
use std::fmt;

/// A ground for refusing. The grounds are tried by number, but 2 goes before 1 where its place is below
/// [`MAX_QUERY`](crate::MAX_QUERY), and between 5 and 6 the smaller place decides.
#[derive(Clone, Copy, PartialEq, Eq, PartialOrd, Ord, Hash, Debug)]
#[repr(u32)]
pub enum Ground {
    /// The query has more than [`MAX_QUERY`](crate::MAX_QUERY) bytes, and none of those before that
    /// place is dead; the place is that number.
    QueryTooLong = 1,
    /// The query is not in the grammar; the place is that of its dead byte: the first one with
    /// which no query can begin up to and including it, or the length of a query that is incomplete.
    /// So a fault near the beginning is told of a query that is too long as well:
    ///
    /// ```
    /// use woodcrock::{list, Ground, Refusal};
    ///
    /// let query = format!("$.lot-number{}", "['lot']".repeat(200));
    /// let refusal = Refusal { ground: Ground::QueryMalformed, place: 5 };
    /// assert_eq!(list(query.as_bytes(), b"{}").err(), Some(refusal));
    /// ```
    QueryMalformed = 2,
    /// The query has more than [`MAX_STEPS`] steps; the place is that of the `.`
    /// or `[` that begins the first step too many.
    TooManySteps = 3,
    /// The record has more than [`MAX_RECORD`](crate::MAX_RECORD) bytes; the place is that number.
    RecordTooLong = 4,
    /// The record is not a JSON text; the place is that of its dead byte, as for a query.
    RecordMalformed = 5,
    /// A bracket that the grammar allows opens one level of nesting more than
    /// [`MAX_LEVELS`]; the place is that of the bracket.
    RecordTooDeep = 6,
    /// More nodes are picked out than the list has pairs; the place is the first byte of the first
    /// node left over. The list holds all nodes before it.
    ListFull = 7,
    /// No value begins at the offset asked for, which is the place. A member's name is no value.
    NoValueThere = 8,
    /// A name on the way from the root to the node, or its own, has half of a surrogate pair, which no
    /// path can hold; the place is that of the opening quote of the first such name, the outermost.
    HalfInName = 9,
    /// The path is longer than the buffer; the place is the first byte of the node.
    PathTooLong = 10,
}

impl Ground {
    /// All grounds in the order of their numbers.
    pub const ALL: [Ground; 10] = [
        Ground::QueryTooLong,
        Ground::QueryMalformed,
        Ground::TooManySteps,
        Ground::RecordTooLong,
        Ground::RecordMalformed,
        Ground::RecordTooDeep,
        Ground::ListFull,
        Ground::NoValueThere,
        Ground::HalfInName,
        Ground::PathTooLong,
    ];

    /// The ground's number, from 1 to 10.
    pub fn number(self) -> u32 {
        self as u32
    }

    /// Whether the place is one in the query; else it is one in the record.
    pub fn is_of_query(self) -> bool {
        self <= Ground::TooManySteps
    }
}

/// A refusal: why, and where in the query or the record.
#[derive(Clone, Copy, PartialEq, Eq, Hash, Debug)]
pub struct Refusal {
    pub ground: Ground,
    /// A byte of the query on the first three grounds and of the record on the others, from 0.
    pub place: usize,
}

impl Refusal {
    /// What a ground's number and a place say: nothing for 0.
    pub(crate) fn check(ground: u32, place: usize) -> Result<(), Refusal> {
        let Some(index) = ground.checked_sub(1) else {
            return Ok(());
        };
        Err(Refusal { ground: Ground::ALL[index as usize], place })
    }
}

impl fmt::Display for Refusal {
    fn fmt(&self, out: &mut fmt::Formatter) -> fmt::Result {
        let place = self.place;
        match self.ground {
            Ground::QueryTooLong => write!(out, "the query has more than {place} bytes"),
            Ground::QueryMalformed => write!(out, "the query is malformed at byte {place}"),
            Ground::TooManySteps => {
                write!(out, "the query has more than {MAX_STEPS} steps at byte {place}")
            }
            Ground::RecordTooLong => write!(out, "the record has more than {place} bytes"),
            Ground::RecordMalformed => write!(out, "the record is malformed at byte {place}"),
            Ground::RecordTooDeep => {
                write!(out, "the record is nested deeper than {MAX_LEVELS} levels at byte {place}")
            }
            Ground::ListFull => write!(out, "the list has no room for the node at byte {place}"),
            Ground::NoValueThere => write!(out, "no value of the record begins at byte {place}"),
            Ground::HalfInName => {
                write!(out, "the name at byte {place} has half of a surrogate pair")
            }
            Ground::PathTooLong => {
                write!(out, "the buffer has no room for the path of the node at byte {place}")
            }
        }
    }
}

impl Error for Refusal {}
