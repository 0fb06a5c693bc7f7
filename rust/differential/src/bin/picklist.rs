//! The program `picklist` by the independent implementation: what another one is compared with.

use std::io::{self, Read, Write};

fn main() -> io::Result<()> {
    let mut input = Vec::new();
    io::stdin().read_to_end(&mut input)?;
    io::stdout().write_all(&oracle::picklist(&input))
}
