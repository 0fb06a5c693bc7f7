//! The program `picklist` as a function from its input to its output (document 01, "Sample
//! records").

use crate::answers::{list, Answer, NO_GROUND};

/// The most bytes of input that are not too long, the query and its line feed counted.
pub const MAX_INPUT: usize = 65_536;
/// The pairs of the program's list.
pub const PICKLIST_PAIRS: usize = 256;

/// What the program prints for its input.
pub fn picklist(input: &[u8]) -> Vec<u8> {
    if input.len() > MAX_INPUT {
        return b"too long\n".to_vec();
    }
    let mut parts = input.splitn(2, |&byte| byte == b'\n');
    let query = parts.next().unwrap_or(&[]);
    let record = parts.next().unwrap_or(&[]);
    let mut numbers = [0; 2 * PICKLIST_PAIRS];
    let Answer { ground, place, pairs, .. } = list(query, record, &mut numbers);
    if ground != NO_GROUND {
        return format!("refused {ground} {place}\n").into_bytes();
    }
    let mut output = format!("matches {pairs}\n");
    for (index, pair) in numbers.chunks_exact(2).take(pairs as usize).enumerate() {
        output += &format!("{} {} {}\n", index + 1, pair[0], pair[1]);
    }
    output.into_bytes()
}
