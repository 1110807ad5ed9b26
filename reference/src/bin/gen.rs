//! Writes one script: `gen --seed N --kind KIND --cells N`, the kind one of `KINDS`.

use reference::generators::arbitrary::arbitrary_script;
use reference::generators::full::full_script;
use reference::generators::history::{history_script, ring_script};
use reference::generators::mixed::mixed_script;
use reference::generators::reading::{
    carrying_script, mirror_script, reading_script, rehearse_script,
};
use reference::generators::rng::Rng;
use reference::generators::upkeep_episodes::upkeep_script;
use reference::script::args::value;
use std::io::{self, Write};
use std::process::ExitCode;

const KINDS: &str =
    "history, ring, arbitrary, reading, mirror, rehearse, carrying, upkeep, full, mixed or turning";

fn main() -> io::Result<ExitCode> {
    let mut rng = Rng::new(value("--seed", 1));
    let cells = value("--cells", 4_000);
    let kind: String = value("--kind", "history".into());
    let script = match kind.as_str() {
        "history" => history_script(&mut rng, cells),
        "ring" => ring_script(&mut rng, cells),
        "arbitrary" => arbitrary_script(&mut rng, cells),
        "reading" => reading_script(&mut rng, cells),
        "mirror" => mirror_script(&mut rng, cells),
        "rehearse" => rehearse_script(&mut rng, cells),
        "carrying" => carrying_script(&mut rng, cells),
        "upkeep" => upkeep_script(&mut rng, cells),
        "full" => full_script(&mut rng),
        "mixed" | "turning" => {
            let (script, missing) = mixed_script(&mut rng, cells, kind == "turning");
            if !missing.is_empty() {
                eprintln!("not reached: {missing:?}");
                return Ok(ExitCode::FAILURE);
            }
            script
        }
        _ => {
            eprintln!("--kind is {KINDS}");
            return Ok(ExitCode::from(2));
        }
    };
    io::stdout().lock().write_all(&script.concat())?;
    Ok(ExitCode::SUCCESS)
}
