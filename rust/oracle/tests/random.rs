//! What the papers say in more than one way, on random cases: both ways have to agree.

use oracle::{
    find_value, list, marks, normalized_path, picked, picks, read_steps, read_value, sort_block,
    taken_steps, takes, write_path, Answer, Kind, Node, Picks, Refusal, Selector, Step, Tree,
    Value, Words, Written, BLOCK, NO_GROUND,
};
use records::{cases, large, Random};
use std::collections::BTreeSet;

const CASES: usize = 20_000;

/// A query and a record that share some names.
fn random_case(random: &mut Random) -> (Vec<u8>, Vec<u8>) {
    let names = cases::names(random);
    (cases::query(random, names), cases::record(random, names))
}

/// Queries and records that are taken, with what the first picks out of the second.
fn taken_cases(seed: u64) -> impl Iterator<Item = (Vec<Step>, Vec<u8>, Tree, Picks)> {
    let mut random = Random::new(seed);
    (0..CASES).filter_map(move |_| {
        let (query, record) = random_case(&mut random);
        let picks = picks(&query, &record).ok()?;
        let steps = taken_steps(&query).unwrap();
        let tree = Tree::of(&record).unwrap();
        Some((steps, record, tree, picks))
    })
}

fn is_child(tree: &Tree, child: usize, parent: usize) -> bool {
    tree.nodes[child].parent == Some(parent as u32)
}

/// RFC 9535, section 2.3: what a selector takes from a node, in the order of the record.
fn selected(step: &Step, record: &[u8], tree: &Tree, node: usize) -> Vec<usize> {
    let is_taken = |&child: &usize| match &step.selector {
        Selector::Every => is_child(tree, child, node),
        Selector::Name(name) => {
            is_child(tree, child, node)
                && tree.nodes[node].kind == Kind::Object
                && tree.nodes[child].name_points(record).as_ref() == Some(name)
        }
        Selector::Position(position) => {
            let children = (0..tree.nodes.len()).filter(|&other| is_child(tree, other, node));
            tree.nodes[node].kind == Kind::Array
                && children.enumerate().any(|(j, other)| j as u64 == *position && other == child)
        }
    };
    (0..tree.nodes.len()).filter(is_taken).collect()
}

/// RFC 9535, section 2.5.2.2: a node and then its descendants, each before those below it.
fn with_descendants(tree: &Tree, node: usize, found: &mut Vec<usize>) {
    found.push(node);
    for child in (0..tree.nodes.len()).filter(|&child| is_child(tree, child, node)) {
        with_descendants(tree, child, found);
    }
}

/// RFC 9535, section 2.5: the list of nodes of a query, with its repetitions.
fn nodelist(steps: &[Step], record: &[u8], tree: &Tree) -> Vec<usize> {
    let mut nodes = vec![0];
    for step in steps {
        let mut from = Vec::new();
        for &node in &nodes {
            match step.deep {
                true => with_descendants(tree, node, &mut from),
                false => from.push(node),
            }
        }
        nodes = from.iter().flat_map(|&node| selected(step, record, tree, node)).collect();
    }
    nodes
}

#[test]
fn the_picked_nodes_are_those_of_rfc_9535() {
    let (mut compared, mut repeated) = (0, 0);
    for (steps, record, tree, picks) in taken_cases(1) {
        if tree.nodes.len() > 40 || steps.len() > 3 {
            continue;
        }
        let nodes = nodelist(&steps, &record, &tree);
        let set: BTreeSet<usize> = nodes.iter().copied().collect();
        let pairs: Vec<_> =
            set.iter().map(|&node| (tree.nodes[node].start, tree.nodes[node].end)).collect();
        assert_eq!(picks.pairs, pairs);
        compared += 1;
        repeated += usize::from(set.len() < nodes.len());
    }
    assert!(compared > 5_000 && repeated > 100, "{compared} compared, {repeated} repeated");
}

/// The marks of each node as a set, from the root down: a mark stays where the next step is deep,
/// and a node that step i takes from a node with mark i - 1 has mark i.
fn mark_sets(steps: &[Step], record: &[u8], tree: &Tree) -> Vec<BTreeSet<usize>> {
    let mut sets: Vec<BTreeSet<usize>> = Vec::new();
    for node in &tree.nodes {
        let mut set = BTreeSet::new();
        match node.parent {
            None if !steps.is_empty() => drop(set.insert(0)),
            None => (),
            Some(parent) => {
                let above = &sets[parent as usize];
                set.extend(above.iter().filter(|&&i| steps[i].deep));
                let taken = above.iter().filter(|&&i| takes(&steps[i], record, node));
                set.extend(taken.map(|&i| i + 1).filter(|&i| i < steps.len()));
            }
        }
        sets.push(set);
    }
    sets
}

#[test]
fn marks_can_be_had_from_the_marks_above() {
    for (steps, record, tree, _) in taken_cases(2) {
        let marks = marks(&steps, &record, &tree);
        for (index, set) in mark_sets(&steps, &record, &tree).iter().enumerate() {
            let by_words = (0..steps.len()).filter(|&i| marks[i][index]);
            assert!(by_words.eq(set.iter().copied()));
        }
    }
}

#[test]
fn the_last_step_picks_from_nodes_with_the_last_mark() {
    for (steps, record, tree, picks) in taken_cases(3) {
        let sets = mark_sets(&steps, &record, &tree);
        let is_picked = |node: &&Node| match (steps.len().checked_sub(1), node.parent) {
            (None, parent) => parent.is_none(),
            (Some(last), Some(parent)) => {
                sets[parent as usize].contains(&last) && takes(&steps[last], &record, node)
            }
            (Some(_), None) => false,
        };
        let nodes = tree.nodes.iter().filter(is_picked);
        assert!(nodes.map(|node| (node.start, node.end)).eq(picks.pairs.iter().copied()));
    }
}

/// The frames on the path from the root to a node.
fn frames_to(sets: &[BTreeSet<usize>], tree: &Tree, mut node: usize) -> usize {
    let mut frames = 0;
    while let Some(parent) = tree.nodes[node].parent {
        let parent = parent as usize;
        frames += usize::from(tree.nodes[node].kind.is_container() && sets[node] != sets[parent]);
        node = parent;
    }
    frames
}

#[test]
fn the_peak_is_the_most_frames_on_a_path() {
    let mut high = 0;
    for (steps, record, tree, picks) in taken_cases(4) {
        let sets = mark_sets(&steps, &record, &tree);
        let peak = (0..tree.nodes.len()).map(|node| frames_to(&sets, &tree, node)).max().unwrap();
        assert_eq!(picks.peak as usize, peak);
        if steps.iter().all(|step| step.deep) {
            assert!(peak <= steps.len().saturating_sub(1));
        }
        high += usize::from(peak > 200);
    }
    assert!(high > 5, "{high} with a high peak");
}

#[test]
fn the_list_keeps_what_it_held_beyond_the_pairs() {
    let mut random = Random::new(5);
    for _ in 0..CASES {
        let (query, record) = random_case(&mut random);
        let numbers = random.below(12);
        let old = cases::list(&mut random, numbers);
        let mut lent = old.clone();
        let answer = list(&query, &record, &mut lent);
        let written = 2 * answer.pairs as usize;
        assert_eq!(lent[written..], old[written..]);
        match picks(&query, &record) {
            Err(Refusal { ground, place }) => {
                let place = place as u32;
                assert_eq!(answer, Answer { ground, place, pairs: 0, peak: 0 });
            }
            Ok(picks) => {
                let flat: Vec<u32> = picks.pairs.iter().flat_map(|&(s, e)| [s, e]).collect();
                assert_eq!(lent[..written], flat[..written]);
                assert_eq!(answer.ground, if written < flat.len() { 7 } else { NO_GROUND });
                assert!(written == flat.len() || written == numbers / 2 * 2);
                assert!(flat.chunks(2).all(|pair| pair[0] < pair[1]));
                assert!(flat.chunks(2).zip(flat.chunks(2).skip(1)).all(|(a, b)| a[0] < b[0]));
            }
        }
    }
}

#[test]
fn the_finder_knows_every_node_and_no_other_offset() {
    for (_, record, tree, _) in taken_cases(6).take(300) {
        let mut nodes = tree.nodes.iter().peekable();
        for offset in 0..record.len().min(300) {
            match nodes.next_if(|node| node.start as usize == offset) {
                Some(node) => {
                    let end = node.end as usize;
                    assert_eq!(find_value(&record, offset), Value { ground: 0, place: 0, end });
                    assert_eq!(read_value(&record, offset), &record[offset..end]);
                }
                None => {
                    let wanted = Value { ground: 8, place: offset, end: 0 };
                    assert_eq!(find_value(&record, offset), wanted);
                    assert!(read_value(&record, offset).is_empty());
                }
            }
        }
    }
}

/// Whether the name of a node has half of a surrogate pair.
fn has_half(record: &[u8], node: &Node) -> bool {
    let points = node.name_points(record).unwrap_or_default();
    points.iter().any(|point| (0xD800..0xE000).contains(point))
}

/// The place of the opening quote of the outermost name with half of a pair, from the node upwards.
fn outermost_half(record: &[u8], tree: &Tree, node: &Node) -> Option<usize> {
    let above = node.parent.map(|parent| &tree.nodes[parent as usize]);
    let above = above.and_then(|parent| outermost_half(record, tree, parent));
    above.or_else(|| has_half(record, node).then(|| node.name.unwrap().0 as usize - 1))
}

#[test]
fn a_path_is_a_query_for_the_nodes_of_that_path() {
    let (mut compared, mut shared, mut halves) = (0, 0, 0);
    for (_, record, tree, _) in taken_cases(9).filter(|(.., tree, _)| tree.nodes.len() <= 40) {
        let path = |node: &Node| normalized_path(&record, &tree, node);
        let paths: Vec<Result<String, usize>> = tree.nodes.iter().map(path).collect();
        for (node, path) in tree.nodes.iter().zip(&paths) {
            assert_eq!(path.as_ref().err(), outermost_half(&record, &tree, node).as_ref());
            let Ok(text) = path else {
                halves += 1;
                continue;
            };
            let steps = read_steps(text.as_bytes()).unwrap();
            assert!(steps.iter().all(|step| !step.deep && step.selector != Selector::Every));
            let equal: Vec<bool> = paths.iter().map(|other| other == path).collect();
            assert_eq!(picked(&steps, &record, &tree), equal, "{text}");
            assert!(text.len() <= 2 * record.len());
            shared += usize::from(equal.iter().filter(|equal| **equal).count() > 1);
            compared += 1;
        }
    }
    assert!(compared > 20_000 && shared > 1_000 && halves > 1_000, "{compared} {shared} {halves}");
}

#[test]
fn the_writer_goes_on_where_the_finder_ends() {
    let mut random = Random::new(10);
    let mut by_ground = [0; 11];
    for _ in 0..CASES / 4 {
        let (_, record) = random_case(&mut random);
        let offset = random.below(record.len() + 2);
        let old: Vec<u8> = (0..random.below(80)).map(|_| random.bits() as u8).collect();
        let mut buffer = old.clone();
        let written = write_path(&record, offset, &mut buffer);
        let Written { ground, place, length } = written;
        let found = find_value(&record, offset);
        match ground {
            9 | 10 => assert_eq!(found.ground, NO_GROUND),
            _ => assert_eq!((ground, place), (found.ground, found.place)),
        }
        assert_eq!(buffer[length..], old[length..]);
        assert_eq!(ground == NO_GROUND, length > 0);
        by_ground[ground as usize] += 1;
    }
    assert!(
        [0, 5, 6, 8, 9, 10].iter().all(|&ground: &usize| by_ground[ground] > 20),
        "{by_ground:?}"
    );
}

/// The sorter as a machine that reads the block once.
fn sorted_in_one_pass(rest: &[u8], inside: bool, odd: bool) -> Words {
    let mut words = Words { quotes: 0, strings: 0, opening: 0, closing: 0, inside, odd };
    for (i, &byte) in rest.iter().take(BLOCK).enumerate() {
        let bit = 1 << i;
        if byte == b'"' && !words.odd {
            words.quotes |= bit;
            words.inside = !words.inside;
        }
        words.odd = byte == b'\\' && !words.odd;
        if words.inside {
            words.strings |= bit;
        } else if b"[{".contains(&byte) {
            words.opening |= bit;
        } else if b"]}".contains(&byte) {
            words.closing |= bit;
        }
    }
    words
}

#[test]
fn the_sorter_in_one_pass() {
    let mut random = Random::new(7);
    for _ in 0..CASES {
        let block = cases::block(&mut random);
        for (inside, odd) in [(false, false), (false, true), (true, false), (true, true)] {
            let wanted = sorted_in_one_pass(&block, inside, odd);
            assert_eq!(sort_block(&block, inside, odd), wanted, "{block:?} {inside} {odd}");
        }
    }
    let empty = Words { quotes: 0, strings: 0, opening: 0, closing: 0, inside: true, odd: true };
    assert_eq!(sort_block(b"", true, true), empty);
}

#[test]
fn word_two_is_on_in_the_strings_of_a_taken_record() {
    for (_, record, tree, _) in taken_cases(8) {
        let mut in_string = vec![false; record.len()];
        for node in &tree.nodes {
            if let Some((start, end)) = node.name {
                in_string[start as usize - 1..end as usize].fill(true);
            }
            if node.kind == Kind::String {
                in_string[node.start as usize..node.end as usize - 1].fill(true);
            }
        }
        let (mut inside, mut odd) = (false, false);
        for (number, block) in record.chunks(BLOCK).enumerate() {
            let words = sort_block(&record[number * BLOCK..], inside, odd);
            let wanted = &in_string[number * BLOCK..][..block.len()];
            assert!((0..BLOCK)
                .all(|i| (words.strings >> i & 1 == 1) == *wanted.get(i).unwrap_or(&false)));
            (inside, odd) = (words.inside, words.odd);
        }
        assert!(!inside && !odd);
    }
}

#[test]
fn the_large_records_are_taken() {
    for (name, generator) in large::ALL {
        let record = generator(large::LARGE / 10);
        let picks = picks(b"$..lot", &record).unwrap();
        assert_eq!(picks.pairs.is_empty(), matches!(name, "feed" | "escaped" | "numbers"));
    }
    let deep = large::deep(large::LARGE / 10);
    assert_eq!(oracle::first_bracket_of_level(&deep, 513), None);
    assert!(oracle::first_bracket_of_level(&deep, 510).is_some());
}
