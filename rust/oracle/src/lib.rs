//! An independent implementation of document 01, with the change requests of document 02 that the
//! library has.
//!
//! It is written from RFC 8259, RFC 3629, RFC 9535 and these documents, which decide over them in
//! two places, and from no other code. It builds a tree and evaluates by sets of nodes, in the
//! words of the papers; it is meant to be read, and to be what other code is compared with.

mod answers;
mod json;
mod meaning;
mod names;
mod paths;
mod picklist;
mod piles;
mod query;
mod utf8;
mod words;

pub use answers::{
    find_value, list, path, path_in, picks, read_value, taken_tree, write_path, Answer, NodePath,
    Picks, Refusal, Value, Written, MAX_LEVELS, MAX_RECORD, NO_GROUND,
};
pub use json::{dead_byte, first_bracket_of_level, Kind, Node, Tree};
pub use meaning::{frames, marks, peak, picked, picked_by, takes};
pub use names::code_points;
pub use paths::normalized_path;
pub use picklist::{picklist, MAX_INPUT, PICKLIST_PAIRS};
pub use piles::{bound_pile, Bound, MAX_FRAMES};
pub use query::{read_steps, taken_steps, Selector, Step, MAX_POSITION, MAX_QUERY, MAX_STEPS};
pub use utf8::code_point;
pub use words::{class, sort_block, Words, BLOCK};
