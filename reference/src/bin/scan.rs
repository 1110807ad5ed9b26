//! Document 01's program: reads one volume on standard input and prints a line per page.

use reference::store::scan::{scan, MAX_VOLUME};
use std::io::{self, Read};

fn main() -> io::Result<()> {
    let mut volume = Vec::new();
    io::stdin().take(MAX_VOLUME as u64 + 1).read_to_end(&mut volume)?;
    print!("{}", scan(&volume));
    Ok(())
}
