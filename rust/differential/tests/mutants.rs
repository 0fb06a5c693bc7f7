//! The comparison has to notice wrong engines: each one here is the independent implementation with
//! one fault, and each fault has to be found within the number of cases that the tests run.

use differential::{
    blocks, deep, frames, long, piles, random, Comparison, DeepCall, Engine, Mismatch,
};
use oracle::{
    normalized_path, read_steps, Answer, Bound, Node, Refusal, Selector, Step, Tree, Value, Words,
    Written, MAX_FRAMES, MAX_POSITION, MAX_QUERY, MAX_STEPS,
};

const CASES: u64 = 10_000;

type List = fn(&[u8], &[u8], &mut [u32]) -> Answer;
type WritePath = fn(&[u8], usize, &mut [u8]) -> Written;
type BoundPile = fn(&[u8]) -> Bound;
type Sort = fn(&[u8], bool, bool) -> Words;

/// An engine with a fault in one of its calls.
struct Mutant {
    plain: List,
    jumping: List,
    find: fn(&[u8], usize) -> Value,
    path: WritePath,
    bound: BoundPile,
    sort: Sort,
}

const RIGHT: Mutant = Mutant {
    plain: oracle::list,
    jumping: oracle::list,
    find: oracle::find_value,
    path: oracle::write_path,
    bound: oracle::bound_pile,
    sort: oracle::sort_block,
};

impl Engine for Mutant {
    fn list_plain(&self, query: &[u8], record: &[u8], list: &mut [u32]) -> Answer {
        (self.plain)(query, record, list)
    }

    fn list_jumping(&self, query: &[u8], record: &[u8], list: &mut [u32]) -> Answer {
        (self.jumping)(query, record, list)
    }

    fn find_value(&self, record: &[u8], offset: usize) -> Value {
        (self.find)(record, offset)
    }

    fn write_path(&self, record: &[u8], offset: usize, buffer: &mut [u8]) -> Written {
        (self.path)(record, offset, buffer)
    }

    fn bound_pile(&self, query: &[u8]) -> Bound {
        (self.bound)(query)
    }

    fn sort_block(&self, rest: &[u8], inside: bool, odd: bool) -> Words {
        (self.sort)(rest, inside, odd)
    }
}

/// Random cases and random blocks, as the tests of the linked calls run them.
fn compare(mutant: &Mutant) -> Result<(), Mismatch> {
    let mut comparison = Comparison::new(mutant);
    random(&mut comparison, 1, CASES)?;
    blocks(&mut comparison, 1, CASES)
}

/// Asserts that a fault is found in this call.
fn found_in(call: &str, mutant: Mutant) {
    match compare(&mutant) {
        Err(mismatch) => assert_eq!(mismatch.call, call, "{mismatch}"),
        Ok(()) => panic!("a fault of {call} was not found"),
    }
}

/// Asserts that the fault is found in either walk.
fn found_in_lists(list: List) {
    found_in("list_plain", Mutant { plain: list, ..RIGHT });
    found_in("list_jumping", Mutant { jumping: list, ..RIGHT });
}

/// The lister with other nodes in the place of those that are picked out.
fn with_nodes(
    query: &[u8],
    record: &[u8],
    list: &mut [u32],
    nodes: impl Fn(&Tree, &[Step], Vec<(u32, u32)>) -> Vec<(u32, u32)>,
) -> Answer {
    match oracle::picks(query, record) {
        Err(Refusal { ground, place }) => Answer { ground, place: place as u32, pairs: 0, peak: 0 },
        Ok(mut picks) => {
            let steps = oracle::taken_steps(query).unwrap();
            picks.pairs = nodes(&Tree::of(record).unwrap(), &steps, picks.pairs);
            picks.write(list)
        }
    }
}

#[test]
fn passing_over_the_second_member_of_a_name() {
    found_in_lists(|query, record, list| {
        with_nodes(query, record, list, |tree, _, pairs| {
            let second = |start: u32| {
                let node = tree.nodes.iter().find(|node| node.start == start).unwrap();
                let mut same = tree.nodes.iter().filter(|other| {
                    (other.parent, other.name_points(record))
                        == (node.parent, node.name_points(record))
                });
                node.name.is_some() && same.next().unwrap().start < start
            };
            pairs.into_iter().filter(|&(start, _)| !second(start)).collect()
        })
    });
}

#[test]
fn listing_a_node_once_for_each_way_to_it() {
    found_in_lists(|query, record, list| {
        with_nodes(query, record, list, |tree, steps, pairs| {
            let ways = |start: u32| {
                let index = tree.nodes.iter().position(|node| node.start == start).unwrap();
                ways(steps, record, tree, index)
            };
            pairs.into_iter().flat_map(|pair| vec![pair; ways(pair.0)]).collect()
        })
    });
}

/// In how many ways the steps reach a node, up to a few.
fn ways(steps: &[Step], record: &[u8], tree: &Tree, index: usize) -> usize {
    let node = &tree.nodes[index];
    let Some((last, before)) = steps.split_last() else {
        return usize::from(node.parent.is_none());
    };
    if !oracle::takes(last, record, node) {
        return 0;
    }
    let mut all = 0;
    let mut above = node.parent;
    while let Some(parent) = above {
        all += ways(before, record, tree, parent as usize);
        above = tree.nodes[parent as usize].parent;
        if !last.deep || all > 3 {
            break;
        }
    }
    all
}

#[test]
fn matching_the_beginning_of_a_name() {
    found_in_lists(|query, record, list| {
        with_nodes(query, record, list, |tree, steps, pairs| match steps {
            [Step { deep: true, selector: Selector::Name(name), .. }] => {
                let begins = |points: Option<Vec<u32>>| points.is_some_and(|p| p.starts_with(name));
                let nodes = tree.nodes.iter().filter(|node| begins(node.name_points(record)));
                nodes.map(|node| (node.start, node.end)).collect()
            }
            _ => pairs,
        })
    });
}

/// The lister with another comparison of a query's name and a name as it is written in the record.
/// The peak stays right.
fn with_names(
    query: &[u8],
    record: &[u8],
    list: &mut [u32],
    same: impl Fn(&[u32], &[u8]) -> bool,
) -> Answer {
    with_nodes(query, record, list, |tree, steps, _| {
        let takes = |step: &Step, node: &Node| match &step.selector {
            Selector::Name(name) => node.name_in(record).is_some_and(|written| same(name, written)),
            _ => oracle::takes(step, record, node),
        };
        let chosen = oracle::picked_by(steps, tree, &takes);
        let nodes = tree.nodes.iter().zip(chosen).filter(|(_, chosen)| *chosen);
        nodes.map(|(node, _)| (node.start, node.end)).collect()
    })
}

/// Asserts that the fault of a comparison of names is found in either walk.
macro_rules! found_in_names {
    ($same:expr) => {
        found_in_lists(|query, record, list| with_names(query, record, list, $same))
    };
}

/// A name's characters as numbers, with no escape decoded.
fn undecoded(written: &[u8]) -> Vec<u32> {
    std::str::from_utf8(written).unwrap().chars().map(u32::from).collect()
}

/// The code points of a name in which this text stands for that one.
fn reading(written: &[u8], text: &str, for_text: &str) -> Vec<u32> {
    oracle::code_points(String::from_utf8_lossy(written).replace(text, for_text).as_bytes())
}

#[test]
fn faults_of_names() {
    // One that compares a record's name as it is written.
    found_in_names!(|name, written| name == undecoded(written));
    // One that passes over halves.
    found_in_names!(|name, written| {
        let points = oracle::code_points(written).into_iter();
        name.iter().copied().eq(points.filter(|point| !(0xD800..0xE000).contains(point)))
    });
    // One that joins a pair wrongly by one bit.
    found_in_names!(|name, written| {
        let wrong = u32::from(written.contains(&b'\\')) << 10;
        let points = oracle::code_points(written).into_iter();
        name.iter().copied().eq(points.map(|p| if p > 0xFFFF { p ^ wrong } else { p }))
    });
    // One that knows no digits in upper case.
    found_in_names!(|name, written| {
        let text = String::from_utf8_lossy(written);
        let upper = text
            .match_indices("\\u")
            .any(|(at, _)| text.as_bytes()[at + 2..].iter().take(4).any(u8::is_ascii_uppercase));
        !upper && name == oracle::code_points(written)
    });
    // One that decodes no `\/`, one that takes `\n` for an n.
    found_in_names!(|name, written| name == reading(written, r"\/", r"\\/"));
    found_in_names!(|name, written| name == reading(written, r"\n", "n"));
    // One that takes a decoded name for each of its beginnings.
    found_in_names!(|name, written| {
        let points = oracle::code_points(written);
        points == name || written.contains(&b'\\') && points.starts_with(name)
    });
}

/// A lister that reads another query in the place of its own, if that one is taken.
fn with_text(
    query: &[u8],
    record: &[u8],
    list: &mut [u32],
    other: impl Fn(&str) -> String,
) -> Answer {
    let other = std::str::from_utf8(query).map(other).unwrap_or_default();
    let read = if oracle::taken_steps(other.as_bytes()).is_ok() { other.as_bytes() } else { query };
    oracle::list(read, record, list)
}

#[test]
fn faults_of_escapes_in_queries() {
    // One that does not decode them.
    found_in_lists(|query, record, list| {
        with_text(query, record, list, |text| text.replace('\\', r"\\"))
    });
    // One that knows `\U`.
    found_in_lists(|query, record, list| {
        with_text(query, record, list, |text| text.replace(r"\U", r"\u"))
    });
    // Ones that take a low half alone, a high half alone, and any two halves for a pair.
    found_in_lists(|query, record, list| {
        with_text(query, record, list, |text| text.replace(r"\uDC00", r"\u6100"))
    });
    found_in_lists(|query, record, list| {
        with_text(query, record, list, |text| text.replace(r"\uD800", r"\u6100"))
    });
    found_in_lists(|query, record, list| {
        with_text(query, record, list, |text| text.replace(r"\uD83D\uD83D", r"\uD83D\uDE3D"))
    });
    // One that takes an escape of the other quote.
    found_in_lists(|query, record, list| {
        with_text(query, record, list, |text| text.replace(r"\'", "'"))
    });
}

/// The lister with other positions in the place of those of the elements. The peak stays right.
fn with_positions(
    query: &[u8],
    record: &[u8],
    list: &mut [u32],
    position: impl Fn(&Tree, &Node) -> Option<u32>,
) -> Answer {
    with_nodes(query, record, list, |tree, steps, _| {
        let counted = |node: &Node| Node { position: position(tree, node), ..*node };
        let tree = Tree { nodes: tree.nodes.iter().map(counted).collect() };
        let chosen = oracle::picked(steps, record, &tree);
        let nodes = tree.nodes.iter().zip(chosen).filter(|(_, chosen)| *chosen);
        nodes.map(|(node, _)| (node.start, node.end)).collect()
    })
}

#[test]
fn faults_of_positions() {
    // One that counts from 1.
    found_in_lists(|query, record, list| {
        with_positions(query, record, list, |_, node| node.position.map(|j| j + 1))
    });
    // One that goes on counting in an inner array.
    found_in_lists(|query, record, list| {
        with_positions(query, record, list, |tree, node| {
            let mut position = node.position?;
            let mut around = &tree.nodes[node.parent? as usize];
            while let (Some(outer), Some(parent)) = (around.position, around.parent) {
                position += outer;
                around = &tree.nodes[parent as usize];
            }
            Some(position)
        })
    });
    // One that starts anew behind an inner container.
    found_in_lists(|query, record, list| {
        with_positions(query, record, list, |tree, node| {
            let before = |other: &&Node| {
                (other.parent, other.kind.is_container()) == (node.parent, true)
                    && other.start < node.start
            };
            let last = tree.nodes.iter().filter(before).last();
            Some(node.position? - last.and_then(|last| last.position).map_or(0, |j| j + 1))
        })
    });
    // One that counts members too.
    found_in_lists(|query, record, list| {
        with_positions(query, record, list, |tree, node| {
            let before = |other: &&Node| other.parent == node.parent && other.start < node.start;
            node.parent?;
            Some(tree.nodes.iter().filter(before).count() as u32)
        })
    });
    // One that compares 32 bits.
    found_in_lists(|query, record, list| {
        with_nodes(query, record, list, |tree, steps, _| {
            let narrow = |step: &Step| match step.selector {
                Selector::Position(j) => {
                    Step { selector: Selector::Position(u64::from(j as u32)), ..step.clone() }
                }
                _ => step.clone(),
            };
            let steps: Vec<Step> = steps.iter().map(narrow).collect();
            let chosen = oracle::picked(&steps, record, tree);
            let nodes = tree.nodes.iter().zip(chosen).filter(|(_, chosen)| *chosen);
            nodes.map(|(node, _)| (node.start, node.end)).collect()
        })
    });
}

/// A lister that reads another query where its own has a dead digit, if that one is taken.
fn with_query(
    query: &[u8],
    record: &[u8],
    list: &mut [u32],
    other: impl Fn(&[u8], usize) -> Vec<u8>,
) -> Answer {
    match oracle::taken_steps(query) {
        Err(Refusal { ground: 2, place }) if query.get(place).is_some_and(u8::is_ascii_digit) => {
            let other = other(query, place);
            let read = oracle::taken_steps(&other).map_or(query, |_| &other);
            oracle::list(read, record, list)
        }
        _ => oracle::list(query, record, list),
    }
}

#[test]
fn positions_that_no_query_may_have() {
    // A leading zero.
    found_in_lists(|query, record, list| {
        with_query(query, record, list, |query, place| {
            [&query[..place.saturating_sub(1)], &query[place..]].concat()
        })
    });
    // 2^53.
    found_in_lists(|query, record, list| {
        with_query(query, record, list, |query, _| {
            let text = String::from_utf8_lossy(query).into_owned();
            text.replace(&(MAX_POSITION + 1).to_string(), &MAX_POSITION.to_string()).into_bytes()
        })
    });
}

/// The lister with another refusal, a ground and a place, where the query is too long.
fn where_too_long(
    query: &[u8],
    record: &[u8],
    list: &mut [u32],
    refusal: impl Fn(&[u8]) -> (u32, usize),
) -> Answer {
    if query.len() <= MAX_QUERY {
        return oracle::list(query, record, list);
    }
    let (ground, place) = refusal(query);
    Answer { ground, place: place as u32, pairs: 0, peak: 0 }
}

/// Ground 2, if the place of these bytes is below the limit, and else ground 1.
fn fault_below(limit: usize, query: &[u8]) -> (u32, usize) {
    match read_steps(query) {
        Err(place) if place < limit => (2, place),
        _ => (1, MAX_QUERY),
    }
}

#[test]
fn faults_of_queries_that_are_too_long() {
    // No fault is told.
    found_in_lists(|query, record, list| where_too_long(query, record, list, |_| (1, MAX_QUERY)));
    // Faults are told wherever they stand, or at the limit too.
    found_in_lists(|query, record, list| {
        where_too_long(query, record, list, |query| fault_below(usize::MAX, query))
    });
    found_in_lists(|query, record, list| {
        where_too_long(query, record, list, |query| fault_below(MAX_QUERY + 1, query))
    });
    // A query that the limit cuts in the middle of a step is called incomplete.
    found_in_lists(|query, record, list| {
        where_too_long(query, record, list, |query| fault_below(usize::MAX, &query[..MAX_QUERY]))
    });
    // One byte less is read.
    found_in_lists(|query, record, list| {
        let last = MAX_QUERY - 1;
        where_too_long(query, record, list, |query| fault_below(last, &query[..last]))
    });
    // Ground 3 goes before ground 1.
    found_in_lists(|query, record, list| {
        where_too_long(query, record, list, |query| match read_steps(query) {
            Ok(steps) if steps.len() > MAX_STEPS => (3, steps[MAX_STEPS].place),
            _ => fault_below(MAX_QUERY, query),
        })
    });
}

#[test]
fn useless_walkers() {
    // One that refuses each record.
    found_in_lists(|_, _, _| Answer { ground: 5, place: 0, pairs: 0, peak: 0 });
    // One that always reports no nodes.
    found_in_lists(|query, record, list| with_nodes(query, record, list, |_, _, _| Vec::new()));
    // One that writes nothing.
    found_in_lists(|query, record, list| oracle::list(query, record, &mut list.to_vec()));
    // One that lists the first node and stops.
    found_in_lists(|query, record, list| {
        with_nodes(query, record, list, |_, _, pairs| pairs.into_iter().take(1).collect())
    });
    // One with an invented peak.
    found_in_lists(|query, record, list| {
        let answer = oracle::list(query, record, list);
        Answer { peak: answer.pairs.min(1), ..answer }
    });
    // One that reports ground 7 before it has filled the list.
    found_in_lists(|query, record, list| {
        let pairs = list.len() / 2;
        oracle::list(query, record, &mut list[..pairs.saturating_sub(1) * 2])
    });
}

#[test]
fn a_peak_that_does_not_fit_into_eight_bits() {
    found_in_lists(|query, record, list| {
        let answer = oracle::list(query, record, list);
        Answer { peak: answer.peak % 256, ..answer }
    });
}

#[test]
fn a_list_that_is_cleared_beyond_the_pairs() {
    found_in_lists(|query, record, list| {
        let answer = oracle::list(query, record, list);
        if let Some(last) = list[2 * answer.pairs as usize..].last_mut() {
            *last = 0;
        }
        answer
    });
}

#[test]
fn a_peak_in_a_refusal() {
    found_in_lists(|query, record, list| {
        let answer = oracle::list(query, record, list);
        let peak = oracle::picks(query, record).map_or(0, |picks| picks.peak);
        Answer { peak, ..answer }
    });
}

#[test]
fn a_limit_of_nesting_that_is_one_too_low() {
    found_in_lists(|query, record, list| {
        let level = oracle::first_bracket_of_level(record, oracle::MAX_LEVELS);
        match (oracle::list(query, record, &mut list.to_vec()), level) {
            (Answer { ground: 0 | 7, .. }, Some(place)) => {
                Answer { ground: 6, place: place as u32, pairs: 0, peak: 0 }
            }
            _ => oracle::list(query, record, list),
        }
    });
}

#[test]
fn ground_5_before_ground_6_whatever_the_places() {
    found_in_lists(|query, record, list| match oracle::list(query, record, list) {
        answer @ Answer { ground: 6, .. } => match oracle::dead_byte(record) {
            Some(place) => Answer { ground: 5, place: place as u32, ..answer },
            None => answer,
        },
        answer => answer,
    });
}

#[test]
fn faults_of_the_finder() {
    let found = |find| found_in("find_value", Mutant { find, ..RIGHT });
    // A member's name taken for a value.
    found(|record, offset| match oracle::find_value(record, offset) {
        Value { ground: 8, .. } if record.get(offset) == Some(&b'"') => {
            Value { ground: 0, place: 0, end: offset + 1 }
        }
        value => value,
    });
    // An offset cut to 32 bits, before the search and in the answer.
    found(|record, offset| oracle::find_value(record, offset as u32 as usize));
    found(|record, offset| match oracle::find_value(record, offset) {
        Value { ground: 8, place, end } => Value { ground: 8, place: place as u32 as usize, end },
        value => value,
    });
}

/// Asserts that a fault of the writer of a path is found.
fn found_in_paths(path: WritePath) {
    found_in("write_path", Mutant { path, ..RIGHT });
}

/// A path with this text in the place of the right one.
fn with_text_of_path(
    record: &[u8],
    offset: usize,
    buffer: &mut [u8],
    text: impl Fn(String) -> String,
) -> Written {
    match oracle::path(record, offset) {
        Err(Refusal { ground, place }) => Written { ground, place, length: 0 },
        Ok(path) => oracle::NodePath { text: text(path.text), ..path }.write(buffer),
    }
}

/// A path by another way, or another place of half of a pair, in the place of the right one.
fn with_way(
    record: &[u8],
    offset: usize,
    buffer: &mut [u8],
    path: impl Fn(&Tree, &Node) -> Result<String, usize>,
) -> Written {
    let found = oracle::find_value(record, offset);
    if found.ground != 0 {
        return Written { ground: found.ground, place: found.place, length: 0 };
    }
    let tree = Tree::of(record).unwrap();
    let node = tree.nodes.iter().find(|node| node.start as usize == offset).unwrap();
    match path(&tree, node) {
        Ok(text) => oracle::NodePath { text, node: offset }.write(buffer),
        Err(place) => Written { ground: 9, place, length: 0 },
    }
}

#[test]
fn faults_of_characters_in_paths() {
    // Another quote.
    found_in_paths(|record, offset, buffer| {
        with_text_of_path(record, offset, buffer, |text| text.replace('\'', "\""))
    });
    // An escape forgotten: of a quote, of a backslash, and of a control.
    found_in_paths(|record, offset, buffer| {
        with_text_of_path(record, offset, buffer, |text| text.replace(r"\'", "'"))
    });
    found_in_paths(|record, offset, buffer| {
        with_text_of_path(record, offset, buffer, |text| text.replace(r"\\", r"\"))
    });
    found_in_paths(|record, offset, buffer| {
        with_text_of_path(record, offset, buffer, |text| text.replace(r"\u000b", "\u{B}"))
    });
    // An escape too many: of the other quote, of a slash, and of 7F.
    found_in_paths(|record, offset, buffer| {
        with_text_of_path(record, offset, buffer, |text| text.replace('"', "\\\""))
    });
    found_in_paths(|record, offset, buffer| {
        with_text_of_path(record, offset, buffer, |text| text.replace('/', r"\/"))
    });
    found_in_paths(|record, offset, buffer| {
        with_text_of_path(record, offset, buffer, |text| text.replace('\u{7F}', r"\u007f"))
    });
    // A control by digits that has a letter, and digits in upper case.
    found_in_paths(|record, offset, buffer| {
        with_text_of_path(record, offset, buffer, |text| text.replace(r"\b", r"\u0008"))
    });
    found_in_paths(|record, offset, buffer| {
        with_text_of_path(record, offset, buffer, |text| {
            text.replace(r"\u000b", r"\u000B").replace(r"\u000e", r"\u000E")
        })
    });
    // A name as it is written in the record.
    found_in_paths(|record, offset, buffer| {
        with_way(record, offset, buffer, |tree, node| {
            let path = normalized_path(record, tree, node)?;
            let Some(name) = node.name_in(record).filter(|name| name.contains(&b'\\')) else {
                return Ok(path);
            };
            let above = &tree.nodes[node.parent.unwrap() as usize];
            let above = normalized_path(record, tree, above)?;
            Ok(format!("{above}['{}']", String::from_utf8_lossy(name)))
        })
    });
}

#[test]
fn faults_of_the_way_in_paths() {
    // A position that is one too high, and one that goes on from the array around.
    found_in_paths(|record, offset, buffer| {
        with_way(record, offset, buffer, |tree, node| {
            let counted = |node: &Node| Node { position: node.position.map(|j| j + 1), ..*node };
            let other = Tree { nodes: tree.nodes.iter().map(counted).collect() };
            normalized_path(record, &other, &counted(node))
        })
    });
    found_in_paths(|record, offset, buffer| {
        with_text_of_path(record, offset, buffer, |text| text.replace("[1][0]", "[1][1]"))
    });
    // A position of one digit.
    found_in_paths(|record, offset, buffer| {
        with_text_of_path(record, offset, buffer, |text| text.replace("[10]", "[0]"))
    });
    // The path of the parent.
    found_in_paths(|record, offset, buffer| {
        with_way(record, offset, buffer, |tree, node| {
            let parent = node.parent.map_or(node, |parent| &tree.nodes[parent as usize]);
            normalized_path(record, tree, parent)
        })
    });
    // The path of the first node that has the same name or position.
    found_in_paths(|record, offset, buffer| {
        with_way(record, offset, buffer, |tree, node| {
            let label = |node: &Node| (node.name_points(record), node.position);
            let first = tree.nodes.iter().find(|other| label(other) == label(node)).unwrap();
            normalized_path(record, tree, first)
        })
    });
    // Steps from the node up to the root.
    found_in_paths(|record, offset, buffer| {
        with_text_of_path(record, offset, buffer, |text| {
            let steps = text.split_inclusive(']').map(|step| step.trim_start_matches('$'));
            let steps: Vec<&str> = steps.collect();
            format!("${}", steps.into_iter().rev().collect::<String>())
        })
    });
}

/// The place of the innermost name with half of a surrogate pair, on the way from the root to a node.
fn innermost_half(record: &[u8], tree: &Tree, node: &Node) -> Option<usize> {
    let points = node.name_points(record).unwrap_or_default();
    if points.iter().any(|point| (0xD800..0xE000).contains(point)) {
        return node.name.map(|(start, _)| start as usize - 1);
    }
    innermost_half(record, tree, &tree.nodes[node.parent? as usize])
}

#[test]
fn faults_of_halves_in_paths() {
    // A half that is passed over: each, and each above an element.
    found_in_paths(|record, offset, buffer| match oracle::path(record, offset) {
        Err(Refusal { ground: 9, .. }) => {
            oracle::NodePath { text: "$".to_string(), node: offset }.write(buffer)
        }
        _ => oracle::write_path(record, offset, buffer),
    });
    found_in_paths(|record, offset, buffer| {
        with_way(record, offset, buffer, |tree, node| match normalized_path(record, tree, node) {
            Err(_) if node.position.is_some() => Ok("$".to_string()),
            path => path,
        })
    });
    // The innermost half in the place of the outermost.
    found_in_paths(|record, offset, buffer| {
        with_way(record, offset, buffer, |tree, node| {
            let path = normalized_path(record, tree, node);
            path.map_err(|place| innermost_half(record, tree, node).unwrap_or(place))
        })
    });
    // The place of the name's first character, of the node, and of the first such name in the record.
    found_in_paths(|record, offset, buffer| {
        with_way(record, offset, buffer, |tree, node| {
            normalized_path(record, tree, node).map_err(|place| place + 1)
        })
    });
    found_in_paths(|record, offset, buffer| {
        with_way(record, offset, buffer, |tree, node| {
            normalized_path(record, tree, node).map_err(|_| offset)
        })
    });
    found_in_paths(|record, offset, buffer| {
        with_way(record, offset, buffer, |tree, node| {
            let halves = tree.nodes.iter().filter_map(|node| innermost_half(record, tree, node));
            normalized_path(record, tree, node).map_err(|place| halves.min().unwrap_or(place))
        })
    });
    // A half beside the way.
    found_in_paths(|record, offset, buffer| {
        with_way(record, offset, buffer, |tree, node| {
            let beside = |other: &&Node| other.parent == node.parent && other.start < node.start;
            let mut beside = tree.nodes.iter().filter(beside);
            match beside.find_map(|node| innermost_half(record, tree, node)) {
                Some(place) => Err(place),
                None => normalized_path(record, tree, node),
            }
        })
    });
    // Ground 10 before ground 9.
    found_in_paths(|record, offset, buffer| match oracle::path(record, offset) {
        Err(Refusal { ground: 9, .. }) if buffer.len() < 5 => {
            Written { ground: 10, place: offset, length: 0 }
        }
        _ => oracle::write_path(record, offset, buffer),
    });
}

#[test]
fn faults_of_the_buffer_of_a_path() {
    // As much as there is room for, on ground 10; and the first byte alone.
    found_in_paths(|record, offset, buffer| {
        let written = oracle::write_path(record, offset, buffer);
        if let (10, Ok(path)) = (written.ground, oracle::path(record, offset)) {
            let length = buffer.len();
            buffer.copy_from_slice(&path.text.as_bytes()[..length]);
        }
        written
    });
    found_in_paths(|record, offset, buffer| {
        let written = oracle::write_path(record, offset, buffer);
        if let (10, Some(first)) = (written.ground, buffer.first_mut()) {
            *first = b'$';
        }
        written
    });
    // A zero byte behind the path, and the rest cleared.
    found_in_paths(|record, offset, buffer| {
        let written = oracle::write_path(record, offset, buffer);
        if let Some(next) = buffer.get_mut(written.length) {
            *next = 0;
        }
        written
    });
    found_in_paths(|record, offset, buffer| {
        let written = oracle::write_path(record, offset, buffer);
        if written.ground == 0 {
            buffer[written.length..].fill(0);
        }
        written
    });
    // A buffer that is just long enough refused, and a length in a refusal.
    found_in_paths(|record, offset, buffer| match oracle::path(record, offset) {
        Ok(path) if path.text.len() == buffer.len() => {
            Written { ground: 10, place: offset, length: 0 }
        }
        _ => oracle::write_path(record, offset, buffer),
    });
    found_in_paths(|record, offset, buffer| match oracle::write_path(record, offset, buffer) {
        Written { ground: 10, place, .. } => {
            let length = oracle::path(record, offset).map_or(0, |path| path.text.len());
            Written { ground: 10, place, length }
        }
        written => written,
    });
    // An offset cut to 32 bits.
    found_in_paths(|record, offset, buffer| {
        oracle::write_path(record, offset as u32 as usize, buffer)
    });
}

/// Asserts that a fault of the bound on the pile is found.
fn found_in_bounds(bound: BoundPile) {
    found_in("bound_pile", Mutant { bound, ..RIGHT });
}

/// The bound that some other rule makes of the steps, with the right refusals.
fn by_steps(query: &[u8], bound: impl Fn(&[Step]) -> Option<usize>) -> Bound {
    let right = oracle::bound_pile(query);
    let Ok(steps) = oracle::taken_steps(query) else {
        return right;
    };
    let bound = bound(&steps);
    let frames = bound.map_or(MAX_FRAMES, |frames| frames as u32);
    Bound { bounded: bound.is_some(), frames, ..right }
}

/// The right bound by the steps, if there is one.
fn right_frames(query: &[u8]) -> Option<usize> {
    let Bound { bounded, frames, .. } = oracle::bound_pile(query);
    bounded.then_some(frames as usize)
}

/// One fewer where a step that is asked is deep.
fn if_deep(steps: &[Step], asked: Option<&Step>) -> Option<usize> {
    Some(steps.len() - usize::from(asked.is_some_and(|step| step.deep)))
}

#[test]
fn faults_of_the_bound_by_steps() {
    // One fewer for plain steps too.
    found_in_bounds(|query| {
        by_steps(query, |steps| right_frames(query).map(|_| steps.len().saturating_sub(1)))
    });
    // The number of the steps for all that have a bound.
    found_in_bounds(|query| by_steps(query, |steps| right_frames(query).map(|_| steps.len())));
    // Only the last step asked whether it is deep, only the first, and any of them.
    found_in_bounds(|query| by_steps(query, |steps| if_deep(steps, steps.last())));
    found_in_bounds(|query| by_steps(query, |steps| if_deep(steps, steps.first())));
    found_in_bounds(|query| {
        by_steps(query, |steps| if_deep(steps, steps.iter().find(|step| step.deep)))
    });
    // A bound for deep steps alone and for plain ones alone.
    found_in_bounds(|query| {
        by_steps(query, |steps| {
            right_frames(query).filter(|_| steps.iter().all(|step| step.deep == steps[0].deep))
        })
    });
    // As many frames as plain steps, or as deep ones.
    found_in_bounds(|query| {
        by_steps(query, |steps| {
            right_frames(query).map(|_| steps.iter().filter(|step| !step.deep).count())
        })
    });
    found_in_bounds(|query| {
        by_steps(query, |steps| {
            right_frames(query).map(|_| steps.iter().filter(|step| step.deep).count())
        })
    });
    // Positions that do not count.
    found_in_bounds(|query| {
        by_steps(query, |steps| {
            let positions = |step: &&Step| matches!(step.selector, Selector::Position(_));
            right_frames(query)
                .map(|frames| frames.saturating_sub(steps.iter().filter(positions).count()))
        })
    });
}

/// Another answer where the steps give no bound.
fn where_mixed(query: &[u8], other: impl Fn(Bound) -> Bound) -> Bound {
    match oracle::bound_pile(query) {
        bound @ Bound { ground: 0, bounded: false, .. } => other(bound),
        bound => bound,
    }
}

#[test]
fn faults_of_the_bound_where_the_steps_give_none() {
    // Told as one that they give.
    found_in_bounds(|query| where_mixed(query, |bound| Bound { bounded: true, ..bound }));
    // No frame, a frame for each step, one fewer or more than there is room for, and eight bits.
    found_in_bounds(|query| where_mixed(query, |bound| Bound { frames: 0, ..bound }));
    found_in_bounds(|query| {
        where_mixed(query, |bound| Bound {
            frames: oracle::taken_steps(query).unwrap().len() as u32,
            ..bound
        })
    });
    found_in_bounds(|query| where_mixed(query, |bound| Bound { frames: 510, ..bound }));
    found_in_bounds(|query| where_mixed(query, |bound| Bound { frames: 512, ..bound }));
    found_in_bounds(|query| where_mixed(query, |bound| Bound { frames: 255, ..bound }));
    // Where they give one, told as one that they do not.
    found_in_bounds(|query| Bound { bounded: false, ..oracle::bound_pile(query) });
}

/// Another answer where the query is refused.
fn where_refused(query: &[u8], other: impl Fn(Bound) -> Bound) -> Bound {
    match oracle::bound_pile(query) {
        bound @ Bound { ground: 0, .. } => bound,
        bound => other(bound),
    }
}

#[test]
fn faults_of_the_bound_where_the_query_is_refused() {
    // A bound, of either kind.
    found_in_bounds(|query| where_refused(query, |bound| Bound { frames: MAX_FRAMES, ..bound }));
    found_in_bounds(|query| where_refused(query, |bound| Bound { bounded: true, ..bound }));
    found_in_bounds(|query| match read_steps(query) {
        Ok(steps) if steps.len() > MAX_STEPS => {
            where_refused(query, |bound| Bound { frames: steps.len() as u32, ..bound })
        }
        _ => oracle::bound_pile(query),
    });
    // The place lost, and the ground.
    found_in_bounds(|query| where_refused(query, |bound| Bound { place: 0, ..bound }));
    found_in_bounds(|query| where_refused(query, |bound| Bound { ground: 0, ..bound }));
    // Nothing refused for its length or for its steps.
    found_in_bounds(|query| match oracle::bound_pile(query) {
        Bound { ground: 1, .. } => oracle::bound_pile(&query[..1]),
        bound => bound,
    });
    found_in_bounds(|query| match oracle::bound_pile(query) {
        Bound { ground: 3, place, .. } => oracle::bound_pile(&query[..place]),
        bound => bound,
    });
    // No fault told of a query that is too long.
    found_in_bounds(|query| {
        where_refused(query, |bound| match query.len() > MAX_QUERY {
            true => Bound { ground: 1, place: MAX_QUERY, ..bound },
            false => bound,
        })
    });
}

#[test]
fn a_peak_above_the_bound() {
    let list: List = |query, record, list| {
        let answer = oracle::list(query, record, list);
        let peak = if answer.ground == 0 { MAX_FRAMES + 1 } else { 0 };
        Answer { peak, ..answer }
    };
    for (call, mutant) in [
        ("list_plain", Mutant { plain: list, ..RIGHT }),
        ("list_jumping", Mutant { jumping: list, ..RIGHT }),
    ] {
        let mismatch = compare(&mutant).unwrap_err();
        assert_eq!(mismatch.call, call, "{mismatch}");
        assert!(mismatch.expected.starts_with("a peak of at most "), "{mismatch}");
    }
}

/// A lister whose peaks stop there.
fn with_peaks_up_to(most: u32, query: &[u8], record: &[u8], list: &mut [u32]) -> Answer {
    let answer = oracle::list(query, record, list);
    Answer { peak: answer.peak.min(most), ..answer }
}

#[test]
fn piles_that_are_one_frame_short() {
    // Of as many frames as steps can bound, and of as many as a record has room for.
    let found = |mutant| piles(&mut Comparison::new(&mutant));
    assert!(found(RIGHT).is_ok());
    let wrong: [(List, &str); 2] = [
        (|query, record, list| with_peaks_up_to(15, query, record, list), "a peak of 16 frames"),
        (|query, record, list| with_peaks_up_to(510, query, record, list), "a peak of 511 frames"),
    ];
    for (list, expected) in wrong {
        for (call, mutant) in [
            ("list_plain", Mutant { plain: list, ..RIGHT }),
            ("list_jumping", Mutant { jumping: list, ..RIGHT }),
        ] {
            let mismatch = found(mutant).unwrap_err();
            assert_eq!(mismatch.call, call, "{mismatch}");
            assert!(mismatch.expected.starts_with(expected), "{mismatch}");
        }
    }
}

/// Faults of the sorter.
const WRONG_SORTERS: [Sort; 5] = [
    // A run of backslashes forgotten at the block's edge, on either side.
    |rest, inside, _| oracle::sort_block(rest, inside, false),
    |rest, inside, odd| Words { odd: false, ..oracle::sort_block(rest, inside, odd) },
    // A string forgotten at the block's edge.
    |rest, inside, odd| Words { inside: false, ..oracle::sort_block(rest, inside, odd) },
    // A quote taken as escaped because one backslash stands before it.
    |rest, inside, odd| {
        let mut bytes = rest.to_vec();
        for at in 1..bytes.len() {
            if bytes[at - 1..=at] == *b"\\\\" {
                bytes[at - 1] = b'x';
            }
        }
        oracle::sort_block(&bytes, inside, odd)
    },
    // Bytes after the block read as well.
    |rest, inside, odd| {
        let words = oracle::sort_block(rest, inside, odd);
        let next = oracle::sort_block(rest.get(64..).unwrap_or(&[]), words.inside, words.odd);
        Words { inside: next.inside, ..words }
    },
];

#[test]
fn faults_of_the_sorter() {
    for sort in WRONG_SORTERS {
        found_in("sort_block", Mutant { sort, ..RIGHT });
    }
}

/// The end of the container that starts here, by the words of its blocks.
fn end_by_blocks(record: &[u8], start: usize, sort: Sort) -> Option<u32> {
    let (mut inside, mut odd, mut depth) = (false, false, 0);
    for at in (start..record.len()).step_by(64) {
        let words = sort(&record[at..], inside, odd);
        for bit in 0..64 {
            depth += (words.opening >> bit & 1) as i32 - (words.closing >> bit & 1) as i32;
            if depth == 0 {
                return Some((at + bit + 1) as u32);
            }
        }
        (inside, odd) = (words.inside, words.odd);
    }
    None
}

/// A walk that jumps over each dead container by this sorter, and lists nothing if it goes astray.
fn jumping_by(sort: Sort, query: &[u8], record: &[u8], list: &mut [u32]) -> Answer {
    with_nodes(query, record, list, |tree, steps, pairs| {
        let marks = oracle::marks(steps, record, tree);
        let is_dead = |index: usize| marks.iter().all(|marked| !marked[index]);
        let astray = tree.nodes.iter().enumerate().any(|(index, node)| {
            node.kind.is_container()
                && node.parent.is_some_and(|parent| is_dead(index) && !is_dead(parent as usize))
                && end_by_blocks(record, node.start as usize, sort) != Some(node.end)
        });
        if astray {
            return Vec::new();
        }
        pairs
    })
}

#[test]
fn faults_of_a_jump_by_blocks() {
    let right: List = |q, r, l| jumping_by(oracle::sort_block, q, r, l);
    assert!(compare(&Mutant { jumping: right, ..RIGHT }).is_ok());
    let wrong: [List; 4] = [
        |q, r, l| jumping_by(WRONG_SORTERS[0], q, r, l),
        |q, r, l| jumping_by(WRONG_SORTERS[1], q, r, l),
        |q, r, l| jumping_by(WRONG_SORTERS[2], q, r, l),
        |q, r, l| jumping_by(WRONG_SORTERS[3], q, r, l),
    ];
    for jumping in wrong {
        found_in("list_jumping", Mutant { jumping, ..RIGHT });
    }
}

/// The marks of an item by those of the container around it, and whether it is picked out.
fn advance(steps: &[Step], record: &[u8], marks: u32, node: &Node) -> (u32, bool) {
    let (mut next, mut picked) = (0, false);
    for (i, step) in steps.iter().enumerate().filter(|(i, _)| marks >> i & 1 == 1) {
        if step.deep {
            next |= 1 << i;
        }
        if oracle::takes(step, record, node) {
            next |= 1 << (i + 1);
            picked = picked || i + 1 == steps.len();
        }
    }
    (next & ((1 << steps.len()) - 1), picked)
}

/// A walk over a pile of frames, each of which holds the depth and the marks around its container: the
/// depth by `hold`, and compared with what `compare` makes of the depth of a container that is left.
fn by_frames(
    hold: fn(usize) -> usize,
    compare: fn(usize) -> usize,
    query: &[u8],
    record: &[u8],
    list: &mut [u32],
) -> Answer {
    with_nodes(query, record, list, |tree, steps, pairs| {
        if steps.is_empty() {
            return pairs;
        }
        let (mut marks, mut picks) = (1, Vec::new());
        // The ends of the open containers, and the frames; the innermost last.
        let (mut open, mut pile): (_, Vec<(usize, u32)>) = (Vec::new(), Vec::new());
        for node in &tree.nodes {
            while open.last().is_some_and(|&end| end <= node.start) {
                open.pop();
                if pile.last().is_some_and(|&(depth, _)| depth == compare(open.len())) {
                    (_, marks) = pile.pop().unwrap();
                }
            }
            let (inner, picked) = match node.parent {
                Some(_) => advance(steps, record, marks, node),
                None => (marks, false),
            };
            if picked {
                picks.push((node.start, node.end));
            }
            if node.kind.is_container() {
                if inner != marks {
                    pile.push((hold(open.len()), marks));
                }
                marks = inner;
                open.push(node.end);
            }
        }
        picks
    })
}

#[test]
fn a_depth_of_a_frame_in_eight_bits() {
    let found = |jumping: List| {
        let mutant = Mutant { jumping, ..RIGHT };
        frames(&mut Comparison::new(&mutant)).map_err(|mismatch| mismatch.call)
    };
    let right: List = |q, r, l| by_frames(|depth| depth, |depth| depth, q, r, l);
    assert_eq!(found(right), Ok(()));
    assert!(compare(&Mutant { jumping: right, ..RIGHT }).is_ok());
    // Held in eight bits.
    assert_eq!(found(|q, r, l| by_frames(|d| d % 256, |d| d, q, r, l)), Err("list_jumping"));
    // Held and compared in eight bits.
    assert_eq!(found(|q, r, l| by_frames(|d| d % 256, |d| d % 256, q, r, l)), Err("list_jumping"));
}

#[test]
fn a_limit_of_length_that_is_one_too_high() {
    let list: List = |query, record, list| match oracle::list(query, record, list) {
        Answer { ground: 4, .. } if record.len() == oracle::MAX_RECORD + 1 => {
            oracle::list(query, &record[..oracle::MAX_RECORD], list)
        }
        answer => answer,
    };
    let mutant = Mutant { jumping: list, ..RIGHT };
    assert_eq!(long(&mut Comparison::new(&mutant)).unwrap_err().call, "list_jumping");
}

#[test]
fn a_wrong_answer_on_a_small_stack() {
    let mutant = Mutant { find: |_, offset| Value { ground: 8, place: offset, end: 0 }, ..RIGHT };
    assert!(deep(&mutant, DeepCall::Find, differential::SMALL_STACK).is_err());
    assert!(deep(&mutant, DeepCall::Plain, differential::SMALL_STACK).is_ok());
    let path: WritePath = |record, offset, buffer| {
        let written = oracle::write_path(record, offset, buffer);
        buffer.reverse();
        written
    };
    let mutant = Mutant { path, ..RIGHT };
    assert!(deep(&mutant, DeepCall::Path, differential::SMALL_STACK).is_err());
    let bound: BoundPile = |query| where_mixed(query, |bound| Bound { frames: 510, ..bound });
    let mutant = Mutant { bound, ..RIGHT };
    assert!(deep(&mutant, DeepCall::Bound, differential::SMALL_STACK).is_err());
}
