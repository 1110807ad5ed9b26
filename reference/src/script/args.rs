//! Command line arguments of the form `--name value`.

use std::env;
use std::process::exit;
use std::str::FromStr;

/// The value after `--name`, or the default. Ends the program if it cannot be read.
pub fn value<T: FromStr>(name: &str, default: T) -> T {
    let args: Vec<String> = env::args().collect();
    let Some(at) = args.iter().position(|arg| arg == name) else {
        return default;
    };
    match args.get(at + 1).and_then(|text| text.parse().ok()) {
        Some(value) => value,
        None => {
            eprintln!("{name} needs a value");
            exit(2);
        }
    }
}
