//! serde_json's reader: every value is visited, strings are decoded and checked, numbers are
//! converted, nothing is built. The command line is that of common.hpp.

use serde::de::{DeserializeSeed, Deserializer, Error, MapAccess, SeqAccess, Visitor};
use std::{env, fmt, fs};

/// The steps of a query as bits: bit i is for step i + 1.
#[derive(Default)]
struct Query {
    names: Vec<String>,
    /// 0 for a step without one.
    positions: Vec<usize>,
    stars: u32,
    placed: u32,
    deep: u32,
    all: u32,
}

impl Query {
    fn add(&mut self, step: &str) {
        let bit = 1 << self.names.len();
        let (is_deep, taken) = match step.strip_prefix("..") {
            Some(taken) => (true, taken),
            None => (false, step.strip_prefix('.').unwrap_or(step)),
        };
        let position = taken.strip_prefix('[').and_then(|rest| rest.strip_suffix(']'));
        self.deep |= if is_deep { bit } else { 0 };
        self.stars |= if taken == "*" { bit } else { 0 };
        self.placed |= if position.is_some() { bit } else { 0 };
        self.all |= bit;
        self.names.push(taken.to_string());
        self.positions.push(position.map_or(0, |digits| digits.parse().expect("a number")));
    }

    fn taking_member(&self, marks: u32, key: &str) -> u32 {
        let mut taking = marks & self.stars;
        for (at, name) in self.names.iter().enumerate() {
            let bit = 1 << at;
            if marks & !self.stars & !self.placed & bit != 0 && name == key {
                taking |= bit;
            }
        }
        taking
    }

    fn taking_element(&self, marks: u32, position: usize) -> u32 {
        let mut taking = marks & self.stars;
        if marks & self.placed != 0 {
            for (at, wanted) in self.positions.iter().enumerate() {
                let bit = 1 << at;
                if marks & self.placed & bit != 0 && *wanted == position {
                    taking |= bit;
                }
            }
        }
        taking
    }

    fn next(&self, marks: u32, taking: u32) -> u32 {
        (taking << 1) & self.all | marks & self.deep
    }

    fn picked(&self, taking: u32) -> u64 {
        u64::from((taking << 1) & !self.all != 0)
    }
}

/// Counts the nodes that are picked out below a value with these marks.
#[derive(Clone, Copy)]
struct Below<'a> {
    query: &'a Query,
    marks: u32,
}

/// The steps that take the member whose name is read.
struct Taking<'a>(Below<'a>);

impl<'de> DeserializeSeed<'de> for Taking<'_> {
    type Value = u32;

    fn deserialize<D: Deserializer<'de>>(self, deserializer: D) -> Result<u32, D::Error> {
        deserializer.deserialize_str(self)
    }
}

impl Visitor<'_> for Taking<'_> {
    type Value = u32;

    fn expecting(&self, out: &mut fmt::Formatter) -> fmt::Result {
        out.write_str("a name")
    }

    fn visit_str<E: Error>(self, key: &str) -> Result<u32, E> {
        Ok(self.0.query.taking_member(self.0.marks, key))
    }
}

impl<'de> DeserializeSeed<'de> for Below<'_> {
    type Value = u64;

    fn deserialize<D: Deserializer<'de>>(self, deserializer: D) -> Result<u64, D::Error> {
        deserializer.deserialize_any(self)
    }
}

impl<'de> Visitor<'de> for Below<'_> {
    type Value = u64;

    fn expecting(&self, out: &mut fmt::Formatter) -> fmt::Result {
        out.write_str("a value")
    }

    fn visit_unit<E: Error>(self) -> Result<u64, E> {
        Ok(0)
    }

    fn visit_bool<E: Error>(self, _: bool) -> Result<u64, E> {
        Ok(0)
    }

    fn visit_i64<E: Error>(self, _: i64) -> Result<u64, E> {
        Ok(0)
    }

    fn visit_u64<E: Error>(self, _: u64) -> Result<u64, E> {
        Ok(0)
    }

    fn visit_f64<E: Error>(self, _: f64) -> Result<u64, E> {
        Ok(0)
    }

    fn visit_str<E: Error>(self, _: &str) -> Result<u64, E> {
        Ok(0)
    }

    fn visit_seq<A: SeqAccess<'de>>(self, mut elements: A) -> Result<u64, A::Error> {
        let Below { query, marks } = self;
        let mut nodes = 0;
        for position in 0.. {
            let taking = query.taking_element(marks, position);
            let inner = Below { query, marks: query.next(marks, taking) };
            let Some(below) = elements.next_element_seed(inner)? else { break };
            nodes += query.picked(taking) + below;
        }
        Ok(nodes)
    }

    fn visit_map<A: MapAccess<'de>>(self, mut members: A) -> Result<u64, A::Error> {
        let Below { query, marks } = self;
        let mut nodes = 0;
        while let Some(taking) = members.next_key_seed(Taking(self))? {
            let inner = Below { query, marks: query.next(marks, taking) };
            nodes += query.picked(taking) + members.next_value_seed(inner)?;
        }
        Ok(nodes)
    }
}

fn count(query: &Query, record: &[u8]) -> serde_json::Result<u64> {
    let mut deserializer = serde_json::Deserializer::from_slice(record);
    deserializer.disable_recursion_limit();
    let below = Below { query, marks: query.all & 1 }.deserialize(&mut deserializer)?;
    deserializer.end()?;
    Ok(if query.all == 0 { 1 } else { below })
}

/// Seconds and nanoseconds.
#[repr(C)]
struct Time {
    seconds: i64,
    nanoseconds: i64,
}

extern "C" {
    fn clock_gettime(clock: i32, time: *mut Time) -> i32;
}

/// The clock of the processor time of a thread.
const THREAD_CLOCK: i32 = 3;

/// The processor time of this thread in nanoseconds.
fn now() -> f64 {
    let mut time = Time { seconds: 0, nanoseconds: 0 };
    // SAFETY: the pointer is that of a time.
    unsafe { clock_gettime(THREAD_CLOCK, &mut time) };
    1e9 * time.seconds as f64 + time.nanoseconds as f64
}

fn main() {
    let arguments: Vec<String> = env::args().skip(1).collect();
    let [file, milliseconds, batch, steps @ ..] = arguments.as_slice() else {
        panic!("usage: PEER FILE MILLISECONDS BATCH [STEP...]");
    };
    let record = fs::read(file).expect("the file can be read");
    let mut query = Query::default();
    for step in steps {
        query.add(step);
    }
    let time = 1e6 * milliseconds.parse::<f64>().expect("a number");
    let batch: u32 = batch.parse().expect("a number");
    let (mut nodes, mut best, mut rows, began) = (0, f64::INFINITY, 0, now());
    while rows < 2 || now() - began < time {
        let row_began = now();
        for _ in 0..batch {
            nodes = count(&query, &record).expect("the record is read");
        }
        best = best.min((now() - row_began) / f64::from(batch));
        rows += 1;
    }
    println!("{nodes} {best:.1}");
}
