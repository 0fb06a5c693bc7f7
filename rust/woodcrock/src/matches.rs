//! What a query picks out of a record.

use std::iter::FusedIterator;
use std::ops::Range;
use std::slice::ChunksExact;

/// The nodes of a record that a query picks out: each once, by first byte.
#[derive(Clone, PartialEq, Eq, Debug)]
pub struct Matches<'record> {
    pub(crate) record: &'record [u8],
    /// Two to a node, as a lister writes them.
    pub(crate) numbers: Vec<u32>,
    pub(crate) peak: u32,
}

impl<'record> Matches<'record> {
    /// How many nodes are picked out.
    pub fn len(&self) -> usize {
        self.numbers.len() / 2
    }

    /// Whether no node is picked out.
    pub fn is_empty(&self) -> bool {
        self.numbers.is_empty()
    }

    /// Where the nodes stand in the record, in bytes.
    pub fn ranges(&self) -> Ranges<'_> {
        Ranges::of(&self.numbers)
    }

    /// The values of the nodes, as they are written in the record.
    pub fn values(&self) -> Values<'record, '_> {
        Values { record: self.record, ranges: self.ranges() }
    }

    /// The most frames on one path down from the root. An object or array below the root costs a
    /// frame if its marks differ from those of the one around it. A node has mark i, from 0 up to
    /// the number of steps less 1, if the first i steps, as a query, pick it out, or if step i + 1
    /// is deep and its parent has mark i. [`bound_pile`](crate::bound_pile) bounds it by the query.
    pub fn peak(&self) -> u32 {
        self.peak
    }
}

impl<'record, 'list> IntoIterator for &'list Matches<'record> {
    type Item = &'record [u8];
    type IntoIter = Values<'record, 'list>;

    fn into_iter(self) -> Values<'record, 'list> {
        self.values()
    }
}

/// The byte ranges in a list that a lister wrote.
#[derive(Clone, Debug)]
pub struct Ranges<'list>(ChunksExact<'list, u32>);

impl<'list> Ranges<'list> {
    /// Reads numbers two by two as the first byte and the byte after the last; an odd last number
    /// is left out.
    pub fn of(numbers: &'list [u32]) -> Ranges<'list> {
        Ranges(numbers.chunks_exact(2))
    }
}

fn range(pair: &[u32]) -> Range<usize> {
    pair[0] as usize..pair[1] as usize
}

impl Iterator for Ranges<'_> {
    type Item = Range<usize>;

    fn next(&mut self) -> Option<Range<usize>> {
        self.0.next().map(range)
    }

    fn size_hint(&self) -> (usize, Option<usize>) {
        self.0.size_hint()
    }
}

impl DoubleEndedIterator for Ranges<'_> {
    fn next_back(&mut self) -> Option<Range<usize>> {
        self.0.next_back().map(range)
    }
}

impl ExactSizeIterator for Ranges<'_> {}
impl FusedIterator for Ranges<'_> {}

/// The values that a query picks out, as parts of the record.
#[derive(Clone, Debug)]
pub struct Values<'record, 'list> {
    record: &'record [u8],
    ranges: Ranges<'list>,
}

impl<'record> Iterator for Values<'record, '_> {
    type Item = &'record [u8];

    fn next(&mut self) -> Option<&'record [u8]> {
        self.ranges.next().map(|range| &self.record[range])
    }

    fn size_hint(&self) -> (usize, Option<usize>) {
        self.ranges.size_hint()
    }
}

impl<'record> DoubleEndedIterator for Values<'record, '_> {
    fn next_back(&mut self) -> Option<&'record [u8]> {
        self.ranges.next_back().map(|range| &self.record[range])
    }
}

impl ExactSizeIterator for Values<'_, '_> {}
impl FusedIterator for Values<'_, '_> {}
