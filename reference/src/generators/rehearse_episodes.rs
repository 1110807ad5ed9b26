//! Lists of events in and out of range, played with settings in and out of range.

use crate::generators::rehearse_lists::{choose_events, choose_settings};
use crate::generators::rng::Rng;
use crate::planning::{Settings, MAX_EVENTS};
use crate::script::cell::{Call, Cell, Op, CELL_LEN};
use crate::script::recorder::Script;

/// Adds a list with several settings, and both broken in some way.
pub fn one_rehearsal(mut script: Script, rng: &mut Rng) -> Script {
    if rng.chance(300) {
        script.emit(Op::Fill { target: 3, byte: rng.pick(&[0, 1, 64, 129, 192]) });
    }
    let events = choose_events(rng);
    put_events(&mut script, &events);
    for _ in 0..rng.between(1, 5) {
        script.call(Call::Rehearse(choose_settings(rng)));
    }
    for _ in 0..rng.between(0, 2) {
        script.call(Call::Rehearse(wrong_settings(rng)));
    }
    if rng.chance(700) {
        put_events(&mut script, &wrong_events(events, rng));
        script.call(Call::Rehearse(choose_settings(rng)));
    }
    if rng.chance(50) {
        let mut cell: Cell = [0; CELL_LEN];
        (cell[0], cell[1], cell[2], cell[12]) = (30, rng.pick(&[2, 255]), 1, 1);
        script.emit_cell(cell);
    }
    script
}

fn put_events(script: &mut Script, events: &[u8]) {
    script.poke_second(0..events.len(), events);
    script.resize_second(events.len());
}

/// One setting out of range.
fn wrong_settings(rng: &mut Rng) -> Settings {
    let mut settings = choose_settings(rng);
    match rng.below(2) {
        0 => settings.frames = rng.pick(&[0, 17, 256, 257, 65_535]),
        _ => settings.interval = rng.pick(&[0, 256, 257, 65_537, u32::MAX]),
    }
    settings
}

/// One page out of range, or too many events.
fn wrong_events(mut events: Vec<u8>, rng: &mut Rng) -> Vec<u8> {
    if events.is_empty() || rng.chance(250) {
        let length = MAX_EVENTS + rng.pick(&[1, 1, 2, 500]);
        events.resize(length, rng.pick(&[1, 129]));
        return events;
    }
    let at = rng.below(events.len());
    events[at] = rng.pick(&[0, 65, 127, 128, 193, 255]);
    events
}
