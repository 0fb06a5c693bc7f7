//! What a query picks out, and marks, frames and the peak (document 01, "The part of RFC 9535" and
//! "Marks, frames, the pile"). A set of nodes is a vector with a truth value for each node of the
//! tree.

use crate::json::{Node, Tree};
use crate::query::{Selector, Step};

/// Whether the plain form of a step takes this node from its parent: `*` takes every member and
/// every element, a name takes the members whose name has the same code points (RFC 9535, section
/// 2.3.1.2), a position takes the element of an array that has it.
pub fn takes(step: &Step, record: &[u8], node: &Node) -> bool {
    match &step.selector {
        Selector::Every => node.parent.is_some(),
        Selector::Name(name) => node.name_points(record).as_ref() == Some(name),
        Selector::Position(position) => node.position.map(u64::from) == Some(*position),
    }
}

/// Whether the parent of a node is in a set.
fn parent_in(set: &[bool], node: &Node) -> bool {
    node.parent.is_some_and(|parent| set[parent as usize])
}

/// The nodes of a set and every node below them.
fn with_all_below(set: &[bool], tree: &Tree) -> Vec<bool> {
    let mut below = set.to_vec();
    for (index, node) in tree.nodes.iter().enumerate() {
        below[index] = set[index] || parent_in(&below, node);
    }
    below
}

/// The nodes that a query picks out: the root alone without steps; with one step more every node
/// that the last step takes from some node that the steps before it pick out.
pub fn picked(steps: &[Step], record: &[u8], tree: &Tree) -> Vec<bool> {
    picked_by(steps, tree, &|step, node| takes(step, record, node))
}

/// The same by another rule of what the plain form of a step takes.
pub fn picked_by(steps: &[Step], tree: &Tree, takes: &impl Fn(&Step, &Node) -> bool) -> Vec<bool> {
    let Some((last, before)) = steps.split_last() else {
        return tree.nodes.iter().map(|node| node.parent.is_none()).collect();
    };
    let before = picked_by(before, tree, takes);
    let from = if last.deep { with_all_below(&before, tree) } else { before };
    let is_taken = |node| parent_in(&from, node) && takes(last, node);
    tree.nodes.iter().map(is_taken).collect()
}

/// For each i below the number of steps, the nodes that have mark i: those that the first i steps
/// pick out, and where step i + 1 is deep those whose parent has mark i.
pub fn marks(steps: &[Step], record: &[u8], tree: &Tree) -> Vec<Vec<bool>> {
    let mut all = Vec::new();
    for i in 0..steps.len() {
        let mut marked = picked(&steps[..i], record, tree);
        for (index, node) in tree.nodes.iter().enumerate() {
            marked[index] = marked[index] || (steps[i].deep && parent_in(&marked, node));
        }
        all.push(marked);
    }
    all
}

/// The containers that cost a frame: those below the root whose marks differ from those of the
/// container around them.
pub fn frames(marks: &[Vec<bool>], tree: &Tree) -> Vec<bool> {
    let costs = |(index, node): (usize, &Node)| match node.parent {
        Some(parent) => {
            node.kind.is_container()
                && marks.iter().any(|marked| marked[index] != marked[parent as usize])
        }
        None => false,
    };
    tree.nodes.iter().enumerate().map(costs).collect()
}

/// The peak: the greatest number of containers that cost a frame on one path down from the root.
pub fn peak(steps: &[Step], record: &[u8], tree: &Tree) -> u32 {
    let costs = frames(&marks(steps, record, tree), tree);
    let mut on_path = vec![0; tree.nodes.len()];
    for (index, node) in tree.nodes.iter().enumerate() {
        let above = node.parent.map_or(0, |parent| on_path[parent as usize]);
        on_path[index] = above + u32::from(costs[index]);
    }
    on_path.into_iter().max().unwrap_or(0)
}
