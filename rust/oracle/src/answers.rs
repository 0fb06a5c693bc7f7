//! The answers of the lister, the value finder and the value reader (document 01, "Grounds for
//! refusing"), and of the writer of a node's path (change request S-4).

use crate::json::{dead_byte, first_bracket_of_level, Node, Tree};
use crate::meaning::{peak, picked};
use crate::paths::normalized_path;
use crate::query::taken_steps;

/// The most bytes of a record that is taken.
pub const MAX_RECORD: usize = 16_777_216;
/// The deepest level of nesting in a record that is taken.
pub const MAX_LEVELS: usize = 512;
/// The ground that is answered without a refusal.
pub const NO_GROUND: u32 = 0;

/// A ground for refusing, with its place.
#[derive(Clone, Copy, PartialEq, Eq, Debug)]
pub struct Refusal {
    pub ground: u32,
    pub place: usize,
}

/// The four numbers that a lister answers.
#[derive(Clone, Copy, PartialEq, Eq, Debug)]
pub struct Answer {
    pub ground: u32,
    pub place: u32,
    pub pairs: u32,
    pub peak: u32,
}

/// The three numbers that the value finder answers.
#[derive(Clone, Copy, PartialEq, Eq, Debug)]
pub struct Value {
    pub ground: u32,
    pub place: usize,
    pub end: usize,
}

/// The three numbers that the writer of a path answers.
#[derive(Clone, Copy, PartialEq, Eq, Debug)]
pub struct Written {
    pub ground: u32,
    pub place: usize,
    pub length: usize,
}

/// The nodes that a query picks out, as pairs in the order of their first bytes, and the peak.
#[derive(Clone, PartialEq, Eq, Debug)]
pub struct Picks {
    pub pairs: Vec<(u32, u32)>,
    pub peak: u32,
}

/// The tree of a record that is taken, or the first of grounds 4 to 6 that fits it, where the
/// smaller place decides between 5 and 6.
pub fn taken_tree(record: &[u8]) -> Result<Tree, Refusal> {
    if record.len() > MAX_RECORD {
        return Err(Refusal { ground: 4, place: MAX_RECORD });
    }
    let malformed = dead_byte(record).map(|place| Refusal { ground: 5, place });
    let too_deep = first_bracket_of_level(record, MAX_LEVELS + 1);
    let too_deep = too_deep.map(|place| Refusal { ground: 6, place });
    match malformed.into_iter().chain(too_deep).min_by_key(|refusal| refusal.place) {
        Some(refusal) => Err(refusal),
        None => Ok(Tree::of(record).expect("a text without a dead byte has a tree")),
    }
}

/// What a query picks out of a record, or the first of grounds 1 to 6 that fits them.
pub fn picks(query: &[u8], record: &[u8]) -> Result<Picks, Refusal> {
    let steps = taken_steps(query)?;
    let tree = taken_tree(record)?;
    let chosen = picked(&steps, record, &tree);
    let nodes = tree.nodes.iter().zip(&chosen).filter(|(_, &chosen)| chosen);
    Ok(Picks {
        pairs: nodes.map(|(node, _)| (node.start, node.end)).collect(),
        peak: peak(&steps, record, &tree),
    })
}

impl Picks {
    /// Writes the nodes into a list, as many as it has pairs for, and answers; ground 7 where one
    /// is left over.
    pub fn write(&self, list: &mut [u32]) -> Answer {
        let room = list.len() / 2;
        for (pair, slots) in self.pairs.iter().zip(list.chunks_exact_mut(2)) {
            (slots[0], slots[1]) = *pair;
        }
        match self.pairs.get(room) {
            Some(&(place, _)) => Answer { ground: 7, place, pairs: room as u32, peak: 0 },
            None => Answer {
                ground: NO_GROUND,
                place: 0,
                pairs: self.pairs.len() as u32,
                peak: self.peak,
            },
        }
    }
}

/// The lister: its four answers, and the list as it leaves it.
pub fn list(query: &[u8], record: &[u8], list: &mut [u32]) -> Answer {
    match picks(query, record) {
        Ok(picks) => picks.write(list),
        Err(Refusal { ground, place }) => Answer { ground, place: place as u32, pairs: 0, peak: 0 },
    }
}

/// The node whose first byte stands at the offset, or ground 8.
fn node_at(tree: &Tree, offset: usize) -> Result<&Node, Refusal> {
    let node = tree.nodes.iter().find(|node| node.start as usize == offset);
    node.ok_or(Refusal { ground: 8, place: offset })
}

/// The value finder: the end of the value whose first byte stands at the offset.
pub fn find_value(record: &[u8], offset: usize) -> Value {
    let end = taken_tree(record).and_then(|tree| Ok(node_at(&tree, offset)?.end as usize));
    match end {
        Ok(end) => Value { ground: NO_GROUND, place: 0, end },
        Err(Refusal { ground, place }) => Value { ground, place, end: 0 },
    }
}

/// The value reader: the part of the record that is the value, or an empty part.
pub fn read_value(record: &[u8], offset: usize) -> &[u8] {
    match find_value(record, offset) {
        Value { ground: NO_GROUND, end, .. } => &record[offset..end],
        _ => &[],
    }
}

/// A node's path, and the node's first byte.
#[derive(Clone, PartialEq, Eq, Debug)]
pub struct NodePath {
    pub text: String,
    pub node: usize,
}

/// The path of the node whose first byte stands at the offset, or the first of grounds 4 to 6, 8 and 9
/// that fits.
pub fn path(record: &[u8], offset: usize) -> Result<NodePath, Refusal> {
    path_in(record, &taken_tree(record)?, offset)
}

/// The same for a record that is taken, with its tree.
pub fn path_in(record: &[u8], tree: &Tree, offset: usize) -> Result<NodePath, Refusal> {
    let node = node_at(tree, offset)?;
    match normalized_path(record, tree, node) {
        Ok(text) => Ok(NodePath { text, node: offset }),
        Err(place) => Err(Refusal { ground: 9, place }),
    }
}

impl NodePath {
    /// Writes the path to the start of a buffer and answers; ground 10 where it is longer than the
    /// buffer, which then stays as it was.
    pub fn write(&self, buffer: &mut [u8]) -> Written {
        let length = self.text.len();
        match buffer.get_mut(..length) {
            Some(start) => {
                start.copy_from_slice(self.text.as_bytes());
                Written { ground: NO_GROUND, place: 0, length }
            }
            None => Written { ground: 10, place: self.node, length: 0 },
        }
    }
}

/// The writer of a node's path: its three answers, and the buffer as it leaves it.
pub fn write_path(record: &[u8], offset: usize, buffer: &mut [u8]) -> Written {
    match path(record, offset) {
        Ok(path) => path.write(buffer),
        Err(Refusal { ground, place }) => Written { ground, place, length: 0 },
    }
}
