//! Counts the answers in driver output on standard input. With `--script FILE`, the script
//! behind that output, it counts them for each call; with `--kind`, it also lists what scripts
//! of that kind are to reach and this one does not.

use reference::checks::coverage::{call_name, count_output, hits, label, sought};
use reference::script::args::value;
use reference::script::cell::Cell;
use reference::script::driver::cells;
use std::collections::BTreeMap;
use std::fs;
use std::io::{self, Read};

fn main() -> io::Result<()> {
    let mut output = String::new();
    io::stdin().read_to_string(&mut output)?;
    let script: String = value("--script", String::new());
    if script.is_empty() {
        for (answer, count) in count_output(&output) {
            println!("{count:9} {answer}");
        }
        return Ok(());
    }
    let kind: String = value("--kind", String::new());
    by_call(&fs::read(script)?, &output, &kind);
    Ok(())
}

fn by_call(script: &[u8], output: &str, kind: &str) {
    let mut counts = BTreeMap::new();
    for (cell, line) in cells(script).zip(output.lines()) {
        if let Some(name) = call_name(&cell) {
            let answer = label(line.split(" v=").next().unwrap_or(line));
            *counts.entry((name, answer)).or_insert(0) += 1;
        }
    }
    for ((name, answer), count) in &counts {
        println!("{count:9} {name} {answer}");
    }
    let script: Vec<Cell> = cells(script).collect();
    for (name, answer) in sought(kind).unwrap_or_default().difference(&hits(&script)) {
        println!("  missing {name} {answer}");
    }
}
