//! The program by the reference: reads a plan file from standard input and prints its listing, or
//! `refused` with the number and the place.

use std::io::{self, Read, Write};

use reference::file::LONGEST_FILE;
use reference::printed;

fn main() -> io::Result<()> {
    let mut file = Vec::new();
    io::stdin()
        .take(LONGEST_FILE as u64 + 1)
        .read_to_end(&mut file)?;
    io::stdout().write_all(&printed(&file))
}
