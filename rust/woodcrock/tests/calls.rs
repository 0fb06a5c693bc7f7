//! The safe functions: what they give back, compared with the independent implementation, on the
//! rows of document 01, at every limit and on random cases.

use records::{cases, Random};
use std::ops::Range;
use woodcrock::{
    bound_pile, find_value, list, list_into, path_at, sort_block, value_at, write_path, Ground,
    Listed, Matches, Ranges, Refusal, Walk, MAX_FRAMES, MAX_LEVELS, MAX_QUERY, MAX_RECORD,
    MAX_STEPS,
};

const WALKS: [Walk; 2] = [Walk::Plain, Walk::Jumping];

fn ranges(query: &str, record: &str) -> Vec<(usize, usize)> {
    let matches = list(query.as_bytes(), record.as_bytes()).expect("both are taken");
    matches.ranges().map(|range| (range.start, range.end)).collect()
}

fn refusal(query: &[u8], record: &[u8]) -> (u32, usize) {
    let [plain, jumping] = WALKS.map(|walk| walk.list(query, record).expect_err("a refusal"));
    assert_eq!(plain, jumping);
    (plain.ground.number(), plain.place)
}

#[test]
fn sample_rows() {
    assert_eq!(ranges("$", "7"), [(0, 1)]);
    assert_eq!(ranges("$.M", r#"{"M":1,"M":2}"#), [(5, 6), (11, 12)]);
    assert_eq!(ranges("$..a..b", r#"{"a":{"a":{"b":1}}}"#), [(15, 16)]);
    assert_eq!(ranges("$..*", "[3,[4]]"), [(1, 2), (3, 6), (4, 5)]);
    assert_eq!(ranges("$ ['a' ]", r#"{"a":[]}"#), [(5, 7)]);
    assert_eq!(ranges("$.lot", r#"{"x":"lot\":9}"}"#), []);
    assert_eq!(refusal(b"", b"7"), (2, 0));
    assert_eq!(refusal(b"$.a ", b"7"), (2, 4));
    assert_eq!(refusal(b"$[00]", b"7"), (2, 3));
    assert_eq!(refusal(b"$[9007199254740992]", b"7"), (2, 17));
    assert_eq!(refusal(b"$", b"[1,]"), (5, 3));
    assert_eq!(refusal(b"$", b"01"), (5, 1));
    assert_eq!(refusal(b"$", b"tru"), (5, 3));
    assert_eq!(refusal(b"$", b""), (5, 0));
}

#[test]
fn limits_on_both_sides() {
    let longest = format!("$.{}", "a".repeat(MAX_QUERY - 2));
    assert!(list(longest.as_bytes(), b"7").is_ok());
    assert_eq!(refusal(format!("{longest}a").as_bytes(), b"7"), (1, MAX_QUERY));
    let broken = |place: usize, after: &str| format!("$.{}!{after}", "a".repeat(place - 2));
    let last = MAX_QUERY - 1;
    assert_eq!(refusal(broken(last, "").as_bytes(), b"7"), (2, last));
    assert_eq!(refusal(broken(last, "a").as_bytes(), b"7"), (2, last));
    assert_eq!(refusal(broken(MAX_QUERY, "").as_bytes(), b"7"), (1, MAX_QUERY));
    let most_steps = format!("${}", ".a".repeat(MAX_STEPS));
    assert!(list(most_steps.as_bytes(), b"7").is_ok());
    assert_eq!(refusal(format!("{most_steps}.a").as_bytes(), b"7"), (3, most_steps.len()));
    let mut record = vec![b' '; MAX_RECORD];
    record[0] = b'7';
    assert_eq!(list(b"$", &record).map(|matches| matches.len()), Ok(1));
    assert_eq!(find_value(&record, 0), Ok(1));
    record.push(b' ');
    assert_eq!(refusal(b"$", &record), (4, MAX_RECORD));
    assert_eq!(
        find_value(&record, 0).map_err(|refusal| refusal.ground),
        Err(Ground::RecordTooLong)
    );
    let too_long = Refusal { ground: Ground::RecordTooLong, place: MAX_RECORD };
    assert_eq!(path_at(&record, 0), Err(too_long));
    let nested = |levels: usize| ["[".repeat(levels), "]".repeat(levels)].concat();
    assert_eq!(ranges("$..*", &nested(MAX_LEVELS)).len(), MAX_LEVELS - 1);
    assert_eq!(refusal(b"$", nested(MAX_LEVELS + 1).as_bytes()), (6, MAX_LEVELS));
}

/// The list grows where there are as many nodes as there can be, and matches keep no room.
#[test]
fn records_with_the_most_nodes() {
    for record in [
        "7".to_string(),
        format!("[{}7]", "7,".repeat(100_000)),
        "[".repeat(512) + &"]".repeat(512),
    ] {
        let nodes = record.len().div_ceil(2);
        for walk in WALKS {
            let below = walk.list(b"$..*", record.as_bytes()).expect("both are taken");
            assert_eq!(below.len() + 1, nodes);
        }
    }
}

#[test]
fn a_list_that_is_lent() {
    for walk in WALKS {
        let mut list = [9; 5];
        assert_eq!(walk.list_into(b"$.*", b"[3,[4]]", &mut list), Ok(Listed { pairs: 2, peak: 1 }));
        assert_eq!(list, [1, 2, 3, 6, 9]);
        let full = Refusal { ground: Ground::ListFull, place: 3 };
        let mut list = [9; 3];
        assert_eq!(walk.list_into(b"$.*", b"[3,[4]]", &mut list), Err(full));
        assert_eq!(list, [1, 2, 9]);
        let mut list = [9; 2];
        assert!(walk.list_into(b"$.*", b"[3,[4]", &mut list).is_err());
        assert_eq!(list, [9; 2]);
        let full = Refusal { ground: Ground::ListFull, place: 0 };
        assert_eq!(walk.list_into(b"$", b"7", &mut []), Err(full));
    }
    assert_eq!(list_into(b"$.a", b"[]", &mut []), Ok(Listed { pairs: 0, peak: 0 }));
}

#[test]
fn iterators_from_both_ends() {
    let record = b"[10,20,30]";
    let matches = list(b"$[*]", record).expect("both are taken");
    assert!(!matches.is_empty());
    assert_eq!((matches.len(), matches.ranges().len(), matches.values().len()), (3, 3, 3));
    assert!(matches.ranges().rev().eq([7..9, 4..6, 1..3]));
    assert!(matches.values().rev().eq([&b"30"[..], b"20", b"10"]));
    assert!(matches.into_iter().eq(&matches));
    let (ranges, mut values) = (matches.ranges(), matches.values());
    assert_eq!(
        (ranges.clone().nth(1), values.nth(1), values.next_back()),
        (Some(4..6), Some(&b"20"[..]), Some(&b"30"[..]))
    );
    assert_eq!((values.next(), values.next_back()), (None, None));
    assert!(Ranges::of(&[1, 2, 3, 4, 5]).eq([1..2, 3..4]));
    // The values outlive the matches.
    let first = list(b"$[*]", record).expect("both are taken").values().next();
    assert_eq!(first, Some(&record[1..3]));
}

#[test]
fn values_by_offset() {
    let record = br#" {"a": [1, "x"]} "#;
    assert_eq!(value_at(record, 1), Ok(&record[1..16]));
    assert_eq!(value_at(record, 11), Ok(&b"\"x\""[..]));
    for offset in [0, 2, 16, 17, usize::MAX] {
        let none = Refusal { ground: Ground::NoValueThere, place: offset };
        assert_eq!((find_value(record, offset), value_at(record, offset)), (Err(none), Err(none)));
    }
    let malformed = Refusal { ground: Ground::RecordMalformed, place: 0 };
    assert_eq!(value_at(b"", 0), Err(malformed));
    assert_eq!(value_at(b"\xEF\xBB\xBF7", 3), Err(malformed));
}

#[test]
fn paths_by_offset() {
    let record = br#" {"a": [1, {"it's": "x"}], "\ud800": {"b": 2}} "#;
    let path = |offset: usize| path_at(record, offset);
    assert_eq!(path(1).as_deref(), Ok("$"));
    assert_eq!(path(7).as_deref(), Ok("$['a']"));
    assert_eq!(path(11).as_deref(), Ok("$['a'][1]"));
    assert_eq!(path(20).as_deref(), Ok(r"$['a'][1]['it\'s']"));
    for offset in [37, 43] {
        let half = Refusal { ground: Ground::HalfInName, place: 27 };
        assert_eq!(path(offset), Err(half));
        assert_eq!(write_path(record, offset, &mut []), Err(half));
    }
    for offset in [0, 2, 9, 27, record.len(), usize::MAX] {
        let none = Refusal { ground: Ground::NoValueThere, place: offset };
        assert_eq!((path(offset), write_path(record, offset, &mut [])), (Err(none), Err(none)));
    }
    let malformed = Refusal { ground: Ground::RecordMalformed, place: 0 };
    assert_eq!((path_at(b"", 0), write_path(b"", 0, &mut [])), (Err(malformed), Err(malformed)));
}

#[test]
fn a_buffer_that_is_lent() {
    let record = br#"{"a":[1,2]}"#;
    let mut buffer = *b"............";
    assert_eq!(write_path(record, 8, &mut buffer), Ok(9));
    assert_eq!(buffer, *b"$['a'][1]...");
    assert_eq!(write_path(record, 8, &mut buffer[..9]), Ok(9));
    let too_long = Refusal { ground: Ground::PathTooLong, place: 8 };
    let mut buffer = *b"........";
    assert_eq!(write_path(record, 8, &mut buffer), Err(too_long));
    assert_eq!(buffer, *b"........");
    assert_eq!(write_path(record, 8, &mut []), Err(too_long));
}

/// The memory for a path grows, and is enough where each byte of a name becomes two.
#[test]
fn long_paths() {
    for quotes in [0, 1, 124, 125, 100_000] {
        let name = "'".repeat(quotes);
        let record = format!("{{\"{name}\":[7]}}");
        let path = path_at(record.as_bytes(), 5 + quotes).expect("a value begins there");
        assert_eq!(path, format!("$['{}'][0]", r"\'".repeat(quotes)));
        assert!(path.len() <= 2 * record.len());
    }
    let (opening, closing) = ("[".repeat(MAX_LEVELS), "]".repeat(MAX_LEVELS));
    let path = path_at(format!("{opening}{closing}").as_bytes(), MAX_LEVELS - 1);
    assert_eq!(path, Ok(format!("${}", "[0]".repeat(MAX_LEVELS - 1))));
    let filled = MAX_RECORD - r#"{"":7}"#.len();
    let longest = format!("{{\"{}\":7}}", "'".repeat(filled));
    let path = path_at(longest.as_bytes(), MAX_RECORD - 2).expect("a value begins there");
    assert_eq!(path.len(), 2 * filled + "$['']".len());
}

#[test]
fn bounds_on_the_pile() {
    for (query, bound) in [
        ("$", Some(0)),
        ("$.a", Some(1)),
        ("$[2]", Some(1)),
        ("$..*", Some(0)),
        ("$.a[0]['b']", Some(3)),
        ("$.a[0]..b", Some(2)),
        ("$.a..b..[0]", Some(2)),
        ("$..a..b..*", Some(2)),
        ("$..a.b", None),
        ("$.a..b[0]", None),
        ("$..a.b..c", None),
        ("$..a..b['c']", None),
    ] {
        assert_eq!(bound_pile(query.as_bytes()), Ok(bound), "{query}");
    }
    let refused = |query: &str| {
        let refusal = bound_pile(query.as_bytes()).expect_err("a refusal");
        assert_eq!(list(query.as_bytes(), b"7").expect_err("the same"), refusal);
        (refusal.ground.number(), refusal.place)
    };
    assert_eq!(refused(""), (2, 0));
    assert_eq!(refused("$..a."), (2, 5));
    let longest = format!("$..{}", "a".repeat(MAX_QUERY - 3));
    assert_eq!(bound_pile(longest.as_bytes()), Ok(Some(0)));
    assert_eq!(refused(&format!("{longest}a")), (1, MAX_QUERY));
    assert_eq!(refused(&format!("{longest}!")), (1, MAX_QUERY));
    let last = MAX_QUERY - 1;
    assert_eq!(refused(&format!("{}!a", &longest[..last])), (2, last));
    let steps =
        |plain: usize, deep: usize| format!("${}{}", ".a".repeat(plain), "..a".repeat(deep));
    assert_eq!(bound_pile(steps(MAX_STEPS, 0).as_bytes()), Ok(Some(16)));
    assert_eq!(bound_pile(steps(0, MAX_STEPS).as_bytes()), Ok(Some(15)));
    assert_eq!(bound_pile(steps(9, MAX_STEPS - 9).as_bytes()), Ok(Some(15)));
    assert_eq!(refused(&steps(MAX_STEPS, 1)), (3, 33));
    assert_eq!(refused(&steps(0, MAX_STEPS + 1)), (3, 49));
}

#[test]
fn the_largest_piles() {
    let in_turns = |levels: usize| {
        let opening = (0..levels).map(|level| [r#"{"a":"#, r#"{"b":"#][level % 2]);
        format!("{}7{}", opening.collect::<String>(), "}".repeat(levels))
    };
    for walk in WALKS {
        let peak = |levels: usize| {
            walk.list(b"$..a.b", in_turns(levels).as_bytes()).map(|matches| matches.peak())
        };
        assert_eq!(peak(MAX_LEVELS), Ok(MAX_FRAMES));
        assert_eq!(peak(MAX_LEVELS - 1), Ok(MAX_FRAMES - 1));
        assert!(peak(MAX_LEVELS + 1).is_err());
    }
    assert_eq!(MAX_FRAMES as usize + 1, MAX_LEVELS);
}

/// A query may be a part of the record that it is asked of.
#[test]
fn a_query_in_its_record() {
    let record = br#"["$.*",2]"#;
    let matches = list(&record[2..5], record).expect("both are taken");
    assert!(matches.ranges().eq([1..6, 7..8]));
}

#[test]
fn every_message() {
    let messages = Ground::ALL.map(|ground| Refusal { ground, place: 42 }.to_string());
    assert_eq!(
        messages,
        [
            "the query has more than 42 bytes",
            "the query is malformed at byte 42",
            "the query has more than 16 steps at byte 42",
            "the record has more than 42 bytes",
            "the record is malformed at byte 42",
            "the record is nested deeper than 512 levels at byte 42",
            "the list has no room for the node at byte 42",
            "no value of the record begins at byte 42",
            "the name at byte 42 has half of a surrogate pair",
            "the buffer has no room for the path of the node at byte 42",
        ]
    );
    let error: Box<dyn std::error::Error> = list(b"$", b"[").unwrap_err().into();
    assert_eq!(error.to_string(), "the record is malformed at byte 1");
    assert!(Ground::ALL.iter().map(|ground| ground.number()).eq(1..=10));
    assert_eq!(Ground::ALL.iter().filter(|ground| ground.is_of_query()).count(), 3);
}

/// Nodes and peak, or ground and place.
type Outcome = Result<(Vec<Range<usize>>, u32), (u32, usize)>;

/// What the independent implementation says in the words of this crate.
fn expected(query: &[u8], record: &[u8]) -> Outcome {
    let picks = oracle::picks(query, record).map_err(|refusal| (refusal.ground, refusal.place))?;
    let ranges = picks.pairs.iter().map(|&(first, end)| first as usize..end as usize);
    Ok((ranges.collect(), picks.peak))
}

/// The same of the bound on the pile.
fn expected_bound(query: &[u8]) -> Result<Option<u32>, (u32, usize)> {
    match oracle::bound_pile(query) {
        oracle::Bound { ground: 0, bounded, frames, .. } => Ok(bounded.then_some(frames)),
        oracle::Bound { ground, place, .. } => Err((ground, place)),
    }
}

#[test]
fn random_cases() {
    let mut random = Random::new(5);
    let mut taken = 0;
    for _ in 0..3_000 {
        let names = cases::names(&mut random);
        let query = cases::query(&mut random, names);
        let record = cases::record(&mut random, names);
        let expected = expected(&query, &record);
        let bound = bound_pile(&query).map_err(|refusal| (refusal.ground.number(), refusal.place));
        assert_eq!(bound, expected_bound(&query));
        for walk in WALKS {
            let found = walk.list(&query, &record);
            let most = bound.map_or(0, |bound| bound.unwrap_or(MAX_FRAMES));
            assert!(found.as_ref().map_or(0, Matches::peak) <= most);
            let found = found.map_err(|refusal| (refusal.ground.number(), refusal.place));
            let found = found.map(|matches| (matches.ranges().collect(), matches.peak()));
            assert_eq!(found, expected);
        }
        taken += expected.is_ok() as u32;
        let offset = random.below(record.len() + 2);
        let value = oracle::find_value(&record, offset);
        let found = find_value(&record, offset);
        let wanted =
            if value.ground == 0 { Ok(value.end) } else { Err((value.ground, value.place)) };
        assert_eq!(found.map_err(|refusal| (refusal.ground.number(), refusal.place)), wanted);
        assert_eq!(value_at(&record, offset).unwrap_or(&[]), oracle::read_value(&record, offset));
    }
    assert!(taken > 300);
}

#[test]
fn random_paths() {
    let mut random = Random::new(7);
    let mut written = 0;
    for _ in 0..1_000 {
        let names = cases::names(&mut random);
        let record = cases::record(&mut random, names);
        for range in list(b"$..*", &record).iter().flat_map(|matches| matches.ranges()).take(20) {
            let found = path_at(&record, range.start);
            let wanted = oracle::path(&record, range.start);
            assert_eq!(
                found.map_err(|refusal| (refusal.ground.number(), refusal.place)),
                wanted.map(|path| path.text).map_err(|refusal| (refusal.ground, refusal.place))
            );
            written += 1;
        }
    }
    assert!(written > 3_000);
}

#[test]
fn random_blocks() {
    let mut random = Random::new(6);
    for _ in 0..3_000 {
        let block = cases::block(&mut random);
        let (inside, odd) = (random.once_in(2), random.once_in(2));
        let found = sort_block(&block, inside, odd);
        let wanted = oracle::sort_block(&block, inside, odd);
        assert_eq!(
            (found.quotes, found.strings, found.opening, found.closing, found.inside, found.odd),
            (
                wanted.quotes,
                wanted.strings,
                wanted.opening,
                wanted.closing,
                wanted.inside,
                wanted.odd
            )
        );
    }
}
