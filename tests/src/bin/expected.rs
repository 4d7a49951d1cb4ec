//! Writes the file `stdout` of every program under crates/ anew, by the reference.

use std::io;

use reference::programs;

fn main() -> io::Result<()> {
    programs::ALL.iter().try_for_each(|program| program.renew())
}
