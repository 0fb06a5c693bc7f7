//! How large the pile gets: rows worked out by hand from change request S-6, the peaks of random cases,
//! and records in which the pile gets as large as it can.

mod common;

use common::listed;
use oracle::{bound_pile, list, taken_steps, Bound, MAX_FRAMES, MAX_LEVELS, MAX_STEPS};
use records::{cases, Random};

/// Asserts that the steps of the query bound the pile by so many frames.
fn bounded(query: impl AsRef<[u8]>, frames: u32) {
    let wanted = Bound { ground: 0, place: 0, bounded: true, frames };
    let shown = String::from_utf8_lossy(query.as_ref());
    assert_eq!(bound_pile(query.as_ref()), wanted, "{shown}");
}

/// Asserts that they do not.
fn unbounded(query: impl AsRef<[u8]>) {
    let wanted = Bound { ground: 0, place: 0, bounded: false, frames: 511 };
    let shown = String::from_utf8_lossy(query.as_ref());
    assert_eq!(bound_pile(query.as_ref()), wanted, "{shown}");
}

/// Asserts that the query is refused on this ground at this place.
fn refused(query: impl AsRef<[u8]>, ground: u32, place: usize) {
    let wanted = Bound { ground, place, bounded: false, frames: 0 };
    let shown = String::from_utf8_lossy(query.as_ref());
    assert_eq!(bound_pile(query.as_ref()), wanted, "{shown}");
}

/// Steps that take from the node itself, and the same from every level below.
const PLAIN: [&str; 7] = [".a", ".*", "['a']", "[\"a\"]", "[*]", "[2]", " [ '\\u0061' ]"];
const DEEP: [&str; 7] =
    ["..a", "..*", "..['a']", "..[\"a\"]", "..[*]", "..[2]", "\n..[ '\\u0061' ]"];

#[test]
fn no_step_and_one() {
    bounded("$", 0);
    PLAIN.iter().for_each(|step| bounded(format!("${step}"), 1));
    DEEP.iter().for_each(|step| bounded(format!("${step}"), 0));
}

#[test]
fn two_steps() {
    for (plain, deep) in PLAIN.iter().flat_map(|plain| DEEP.map(|deep| (plain, deep))) {
        bounded(format!("${plain}{plain}"), 2);
        bounded(format!("${plain}{deep}"), 1);
        bounded(format!("${deep}{deep}"), 1);
        unbounded(format!("${deep}{plain}"));
    }
}

#[test]
fn all_orders_of_three_steps() {
    for at in 0..7 {
        let (p, q) = (PLAIN[at], PLAIN[(at + 3) % 7]);
        let (d, e) = (DEEP[at], DEEP[(at + 5) % 7]);
        bounded(format!("${p}{q}{p}"), 3);
        bounded(format!("${p}{q}{d}"), 2);
        bounded(format!("${p}{d}{e}"), 2);
        bounded(format!("${d}{e}{d}"), 2);
        unbounded(format!("${p}{d}{q}"));
        unbounded(format!("${d}{p}{q}"));
        unbounded(format!("${d}{p}{e}"));
        unbounded(format!("${d}{e}{p}"));
    }
    bounded("$.blend[0]..lot", 2);
    bounded("$['it\\'s']..[\"\\uD83D\\uDE00\"]..*", 2);
    unbounded("$..größe[9007199254740991]['.. ']");
}

#[test]
fn dots_in_names_are_no_steps() {
    bounded("$['..a']", 1);
    bounded("$[\"..\"]['$..*']", 2);
    bounded("$..['.a']", 0);
}

#[test]
fn steps_of_16_and_of_17() {
    let query = |parts: &[(&str, usize)]| {
        let steps = parts.iter().map(|(step, times)| step.repeat(*times));
        format!("${}", steps.collect::<String>())
    };
    bounded(query(&[(".a", 15)]), 15);
    bounded(query(&[(".a", 16)]), 16);
    refused(query(&[(".a", 17)]), 3, 33);
    bounded(query(&[("..a", 15)]), 14);
    bounded(query(&[("..a", 16)]), 15);
    refused(query(&[("..a", 17)]), 3, 49);
    bounded(query(&[(".a", 15), ("..*", 1)]), 15);
    bounded(query(&[("[0]", 1), ("..['a']", 15)]), 15);
    unbounded(query(&[("..a", 1), ("[0]", 15)]));
    unbounded(query(&[("..a", 15), (".*", 1)]));
    unbounded(query(&[(".a", 14), ("..a", 1), (".a", 1)]));
    // A 17th step of either kind, behind blanks, and where the first 16 leave no bound.
    refused(query(&[(".a", 16), ("..a", 1)]), 3, 33);
    refused(query(&[("..a", 16), (" [0]", 1)]), 3, 50);
    refused(query(&[("..a", 1), (".a", 16)]), 3, 34);
}

#[test]
fn query_of_1024_bytes_and_of_1025() {
    let named = |length: usize, before: &str, after: &str| {
        format!("{before}{}{after}", "a".repeat(length - before.len() - after.len()))
    };
    bounded(named(1_024, "$.", ""), 1);
    bounded(named(1_024, "$..", ""), 0);
    bounded(named(1_024, "$['", "']..b"), 1);
    unbounded(named(1_024, "$..", "[0]"));
    for (before, after) in [("$.", ""), ("$..", ""), ("$['", "']..b"), ("$..", "[0]")] {
        refused(named(1_025, before, after), 1, 1_024);
    }
    // A dead byte before 1,024, at it and behind it.
    refused(named(1_024, "$.", "!"), 2, 1_023);
    refused(named(1_025, "$.", "!a"), 2, 1_023);
    refused(named(1_025, "$.", "!"), 1, 1_024);
    refused(named(1_026, "$.", "!"), 1, 1_024);
    refused(named(1_024, "$['", ""), 2, 1_024);
    refused(named(1_025, "$['", ""), 1, 1_024);
    refused("x".repeat(1_025), 2, 0);
    // Ground 3 goes behind both.
    let steps = format!("${}.", ".*".repeat(16));
    refused(named(1_024, &steps, ""), 3, 33);
    refused(named(1_025, &steps, ""), 1, 1_024);
    refused(named(1_025, &steps, "!a"), 2, 1_023);
}

#[test]
fn queries_that_are_not_in_the_grammar() {
    refused("", 2, 0);
    refused(" $", 2, 0);
    refused("a", 2, 0);
    refused("$ ", 2, 2);
    refused("$.", 2, 2);
    refused("$..", 2, 3);
    refused("$...a", 2, 3);
    refused("$.a ", 2, 4);
    refused("$..a.b ", 2, 7);
    refused("$.a..b.", 2, 7);
    refused("$[00]", 2, 3);
    refused("$[9007199254740992]", 2, 17);
    refused("$..['\\uD800']", 2, 11);
    refused(b"$.\xC3", 2, 3);
    // Behind a 17th step.
    refused(format!("${}!", ".a".repeat(17)), 2, 35);
}

/// A query and a record that share some names.
fn random_case(random: &mut Random) -> (Vec<u8>, Vec<u8>) {
    let names = cases::names(random);
    (cases::query(random, names), cases::record(random, names))
}

#[test]
fn no_peak_is_larger() {
    let mut random = Random::new(11);
    let (mut reached, mut below, mut mixed, mut refused) = (0, 0, 0, 0);
    for _ in 0..20_000 {
        let (query, record) = random_case(&mut random);
        let bound = bound_pile(&query);
        let answer = list(&query, &record, &mut vec![0; 2 * record.len()]);
        assert!(answer.peak <= bound.frames, "{bound:?} {answer:?}");
        match bound {
            Bound { ground: 0, bounded: true, frames, .. } if frames > 0 => {
                reached += usize::from(answer.peak == frames);
                below += usize::from(answer.peak < frames);
            }
            Bound { ground: 0, bounded: false, .. } => mixed += 1,
            Bound { ground, place, .. } if ground != 0 => {
                assert_eq!((answer.ground, answer.place as usize), (ground, place));
                refused += 1;
            }
            _ => (),
        }
        assert_eq!(bound.ground == 0, taken_steps(&query).is_ok());
    }
    assert!(
        [reached, below, mixed, refused].iter().all(|&cases| cases > 500),
        "{reached} {below} {mixed} {refused}"
    );
}

/// The peak on a record that is taken, with a list that is long enough.
fn peak(query: &str, record: &str) -> u32 {
    let (answer, _) = listed(query.as_bytes(), record.as_bytes(), 2 * record.len());
    assert_eq!((answer.ground, answer.place), (0, 0), "{query} on {record}");
    answer.peak
}

/// So many containers one inside the other, each but the innermost with a value of this label: a name,
/// or the position 0.
fn nested(containers: usize, label: impl Fn(usize) -> Option<&'static str>) -> String {
    let (mut opening, mut closing) = (String::new(), String::new());
    for container in 0..containers {
        let is_last = container + 1 == containers;
        let (opens, closes) = match label(container) {
            Some(_) if is_last => ("{".to_string(), "}"),
            Some(name) => (format!("{{\"{name}\":"), "}"),
            None => ("[".to_string(), "]"),
        };
        opening += &opens;
        closing.insert_str(0, closes);
    }
    opening + &closing
}

/// The plain form of a step, the deep form, and the label of what they take.
const FORMS: [(&str, &str, Option<&str>); 4] = [
    (".a", "..a", Some("a")),
    (".*", "..*", Some("a")),
    ("['\\u0061']", "..[\"a\"]", Some("a")),
    ("[0]", "..[0]", None),
];

/// A bound is reached in a record with one container more; one that has fewer has no room for the last
/// frame, and further ones cost none.
#[test]
fn every_bound_is_reached() {
    for (plain, deep) in (0..=MAX_STEPS).flat_map(|p| (0..=MAX_STEPS - p).map(move |d| (p, d))) {
        let frames = if deep > 0 { plain + deep - 1 } else { plain };
        for (plain_step, deep_step, label) in FORMS {
            let query = format!("${}{}", plain_step.repeat(plain), deep_step.repeat(deep));
            bounded(&query, frames as u32);
            let peak = |containers| peak(&query, &nested(containers, |_| label)) as usize;
            assert_eq!(peak(frames.max(1)), frames.saturating_sub(1), "{query}");
            assert_eq!(peak(frames + 1), frames, "{query}");
            assert_eq!(peak(frames + 3), frames, "{query}");
        }
    }
}

/// Where a plain step stands behind a deep one, a mark comes and goes as often as there are containers,
/// up to the deepest level that is taken.
#[test]
fn a_plain_step_behind_a_deep_one_has_no_bound_but_511() {
    let in_turns = |container: usize| Some(["a", "b"][container % 2]);
    unbounded("$..a.b");
    for levels in 1..=MAX_LEVELS {
        assert_eq!(peak("$..a.b", &nested(levels, in_turns)) as usize, levels - 1);
    }
    let (answer, _) = listed(b"$..a.b", nested(MAX_LEVELS + 1, in_turns).as_bytes(), 0);
    assert_eq!((answer.ground, answer.peak), (6, 0));
    assert_eq!(MAX_FRAMES, 511);
}

#[test]
fn both_bounds_in_one_record() {
    let record = r#"{"a":{"a":{"a":{}}}}"#;
    bounded("$.a.a..a", 2);
    assert_eq!(peak("$.a.a..a", record), 2);
    bounded("$.a.a", 2);
    assert_eq!(peak("$.a.a", record), 2);
}
