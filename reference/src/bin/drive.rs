//! Reads a script on standard input and prints a line for each cell.

use std::io::{self, BufWriter, Read, Write};

fn main() -> io::Result<()> {
    let mut script = Vec::new();
    io::stdin().read_to_end(&mut script)?;
    let mut out = BufWriter::new(io::stdout().lock());
    reference::script::driver::drive(&script, &mut out)?;
    out.flush()
}
