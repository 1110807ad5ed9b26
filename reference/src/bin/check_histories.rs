//! Runs histories through the store and the abstract log: `check_histories --seed N --count N`.

use reference::checks::histories::{check_history, Counts};
use reference::script::args::value;
use reference::store::compare::Comparison;
use std::process::ExitCode;

fn main() -> ExitCode {
    let first: u64 = value("--seed", 1);
    let count: u64 = value("--count", 100);
    let mut sum = Counts::default();
    for seed in first..first.saturating_add(count) {
        match check_history(seed) {
            Ok(counts) => sum.add(&counts),
            Err(text) => {
                eprintln!("seed {seed}: {text}");
                return ExitCode::FAILURE;
            }
        }
    }
    println!(
        "{count} histories, {} events, {} changes durable, {} logs turned, {} pages lost",
        sum.events, sum.durable, sum.turned, sum.lost
    );
    println!("{} images restamped, {} volumes carried over", sum.restamped, sum.finished);
    let pairs =
        |wanted: fn(&Comparison) -> bool| sum.pairs.iter().filter(|&pair| wanted(pair)).count();
    println!(
        "{} pairs of logs that agree, {} with one a beginning of the other, {} that differ",
        pairs(|pair| *pair == Comparison::Agree),
        pairs(|pair| matches!(pair, Comparison::FirstLacks(_) | Comparison::SecondLacks(_))),
        pairs(|pair| matches!(pair, Comparison::Differs(_)))
    );
    println!("{} lists of events played with real calls", sum.rehearsed);
    println!("no contradiction");
    ExitCode::SUCCESS
}
