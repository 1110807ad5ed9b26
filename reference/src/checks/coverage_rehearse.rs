//! The cases behind a rehearsal.

use crate::planning::{rehearse, Event, Figures, Settings, Victim, MAX_EVENTS};
use crate::script::driver::Driver;

pub const REHEARSE_CASES: &[&str] = &[
    "too many events",
    "no frames",
    "too many frames",
    "interval 0",
    "interval too large",
    "read of page 0",
    "read past page 64",
    "change of page 0",
    "change past page 64",
    "no events",
    "as many events as there may be",
    "as many frames as there may be",
    "the largest interval",
    "a read before the first change",
    "images written",
    "nothing written that was let go",
    "backups taken",
    "records replayed",
];

/// The cases of a rehearsal that the driver has made.
pub fn rehearse_cases(driver: &Driver, settings: &Settings) -> Vec<String> {
    let events = driver.second();
    let cases = match rehearse(events, settings) {
        Ok(rows) => played_cases(events, settings, &rows),
        Err(_) => refused_cases(events, settings),
    };
    cases.into_iter().map(String::from).collect()
}

/// The one thing that is out of range; nothing if there are more.
fn refused_cases(events: &[u8], settings: &Settings) -> Vec<&'static str> {
    let any = |wanted: fn(Event) -> bool| events.iter().any(|&byte| wanted(Event::decode(byte)));
    let wrong = [
        ("too many events", events.len() > MAX_EVENTS),
        ("no frames", settings.frames == 0),
        ("too many frames", settings.frames > 16),
        ("interval 0", settings.interval == 0),
        ("interval too large", settings.interval > 255),
        ("read of page 0", any(|event| event == Event::Read(0))),
        ("read past page 64", any(|event| matches!(event, Event::Read(65..)))),
        ("change of page 0", any(|event| event == Event::Change(0))),
        ("change past page 64", any(|event| matches!(event, Event::Change(65..)))),
    ];
    let wrong: Vec<&str> = wrong.into_iter().filter(|case| case.1).map(|case| case.0).collect();
    if wrong.len() == 1 {
        wrong
    } else {
        Vec::new()
    }
}

fn played_cases(events: &[u8], settings: &Settings, rows: &[Figures]) -> Vec<&'static str> {
    let any = |figure: fn(&Figures) -> u32| rows.iter().any(|row| figure(row) > 0);
    let released = settings.victim == Victim::Released;
    let first_is_read = events.first().is_some_and(|&byte| byte < 128);
    let cases = [
        ("no events", events.is_empty()),
        ("as many events as there may be", events.len() == MAX_EVENTS),
        ("as many frames as there may be", settings.frames == 16),
        ("the largest interval", settings.interval == 255),
        ("a read before the first change", first_is_read),
        ("images written", any(|row| row.images)),
        ("nothing written that was let go", released && any(|row| row.loads)),
        ("backups taken", any(|row| row.backups)),
        ("records replayed", any(|row| row.replayed)),
    ];
    cases.into_iter().filter(|case| case.1).map(|case| case.0).collect()
}
