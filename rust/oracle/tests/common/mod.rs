//! What the test files share.
#![allow(dead_code)]

use oracle::{list, Answer};

/// What the lists of the tests hold before a call.
pub const OLD: u32 = 0xDEAD_BEEF;

/// A lister's answers and the list that it leaves, lent with this many old numbers.
pub fn listed(query: &[u8], record: &[u8], numbers: usize) -> (Answer, Vec<u32>) {
    let mut lent = vec![OLD; numbers];
    let answer = list(query, record, &mut lent);
    (answer, lent)
}

/// Asserts that the query picks out exactly these nodes, with this peak, that the list holds them
/// from its start, and that it keeps every number beyond them.
pub fn picks_out(query: &str, record: &str, nodes: &[(u32, u32)], peak: u32) {
    let beyond = 3;
    let (answer, lent) = listed(query.as_bytes(), record.as_bytes(), 2 * nodes.len() + beyond);
    let pairs = nodes.len() as u32;
    assert_eq!(answer, Answer { ground: 0, place: 0, pairs, peak }, "{query} on {record}");
    let mut wanted: Vec<u32> = nodes.iter().flat_map(|&(start, end)| [start, end]).collect();
    wanted.extend([OLD; 3]);
    assert_eq!(lent, wanted, "{query} on {record}");
}

/// Asserts that the call is refused on this ground at this place and writes nothing, whatever the
/// length of the list.
pub fn refused(query: &[u8], record: &[u8], ground: u32, place: usize) {
    for numbers in 0..4 {
        let (answer, lent) = listed(query, record, numbers);
        let wanted = Answer { ground, place: place as u32, pairs: 0, peak: 0 };
        let shown = (String::from_utf8_lossy(query), String::from_utf8_lossy(record));
        assert_eq!(answer, wanted, "{shown:?}");
        assert_eq!(lent, vec![OLD; numbers], "{shown:?}");
    }
}
