//! Generator of volumes, sound and spoilt, for the calls that take volumes but no state.

use crate::generators::arbitrary::{grow, revive, Episode};
use crate::generators::archive_episodes::archive_and_back;
use crate::generators::carry_episodes::one_carrying;
use crate::generators::episodes::{wrong_heading, wrong_length};
use crate::generators::forecast_episodes::look_ahead;
use crate::generators::history::{choose_geometry, choose_ring, Style};
use crate::generators::item_episodes::{
    copied_item, dirty_tail, edited_image, edited_note, edited_record, forged_note, forged_record,
};
use crate::generators::mirror_episodes::{beside_a_copy, one_mirror};
use crate::generators::rehearse_episodes::one_rehearsal;
use crate::generators::rng::Rng;
use crate::generators::world::World;
use crate::script::cell::{Cell, MAX_CELLS};
use crate::script::recorder::Script;

/// What is done to a volume before it is looked at.
const SPOILS: [(Episode, usize); 11] = [
    (leave, 10),
    (forget_notes, 6),
    (wrong_length, 1),
    (wrong_heading, 2),
    (edited_record, 3),
    (forged_record, 2),
    (edited_note, 2),
    (forged_note, 2),
    (edited_image, 2),
    (dirty_tail, 1),
    (copied_item, 2),
];

/// The calls that look at it.
const LOOKS: [(Episode, usize); 2] = [(look_ahead, 2), (archive_and_back, 3)];

/// A script of volumes at all stages of a history, each looked at by these calls.
pub fn reading_script(rng: &mut Rng, cells: usize) -> Vec<Cell> {
    script_of_pieces(cells, rng, |script, end, rng| one_reading(script, end, &LOOKS, rng))
}

/// A script of pairs of volumes.
pub fn mirror_script(rng: &mut Rng, cells: usize) -> Vec<Cell> {
    script_of_pieces(cells, rng, |script, end, rng| match rng.chance(400) {
        true => one_mirror(script, end, rng),
        false => one_reading(script, end, &[(beside_a_copy, 1)], rng),
    })
}

/// A script of lists of events.
pub fn rehearse_script(rng: &mut Rng, cells: usize) -> Vec<Cell> {
    script_of_pieces(cells, rng, |script, _, rng| one_rehearsal(script, rng))
}

/// A script of volumes that are carried over.
pub fn carrying_script(rng: &mut Rng, cells: usize) -> Vec<Cell> {
    script_of_pieces(cells, rng, one_carrying)
}

fn script_of_pieces(
    cells: usize,
    rng: &mut Rng,
    piece: impl Fn(Script, usize, &mut Rng) -> Script,
) -> Vec<Cell> {
    let cells = cells.min(MAX_CELLS);
    let mut script = Script::default();
    while script.len() < cells {
        let end = cells.min(script.len() + rng.between(100, 300));
        script = piece(script, end, rng);
    }
    script.cells.truncate(cells);
    script.cells
}

/// Adds one history with looks at its volume, up to cell `end` or somewhat past it.
fn one_reading(script: Script, end: usize, looks: &[(Episode, usize)], rng: &mut Rng) -> Script {
    let geometry = match rng.chance(600) {
        true => choose_ring(rng),
        false => choose_geometry(rng),
    };
    let style = Style::choose(rng);
    let mut world = World::make(script, geometry, rng.byte());
    while world.script.len() < end {
        let events = rng.between(1, 20);
        grow(&mut world, &style, events, rng);
        revive(&mut world, rng);
        let before = world.script.driver.clone();
        rng.weighted(&SPOILS)(&mut world, rng);
        for _ in 0..rng.between(1, 3) {
            rng.weighted(looks)(&mut world, rng);
        }
        world.script.restore(&before);
    }
    world.script
}

fn leave(_: &mut World, _: &mut Rng) {}

/// All notes gone: the log is as it was, but no backup is known.
fn forget_notes(world: &mut World, _: &mut Rng) {
    let start = world.geometry.note(1).start;
    let end = world.volume().len();
    world.script.poke(start..end, &vec![0; end - start]);
}
