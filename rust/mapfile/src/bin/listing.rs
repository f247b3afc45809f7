//! Reads a map file from standard input and prints its listing by the reference judge.

use std::io::{self, Read, Write};

fn main() -> io::Result<()> {
    let mut bytes = Vec::new();
    io::stdin().read_to_end(&mut bytes)?;
    io::stdout().write_all(mapfile::listing(&bytes).as_bytes())
}
