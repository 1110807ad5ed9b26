//! Generator of arbitrary volumes, memories and states, as mutations of valid ones.

use crate::generators::carry_episodes;
use crate::generators::choose::Kind;
use crate::generators::edge_episodes;
use crate::generators::episodes::{self, probe};
use crate::generators::history::{choose_geometry, choose_ring, Style};
use crate::generators::item_episodes;
use crate::generators::rng::Rng;
use crate::generators::world::World;
use crate::script::cell::{Call, Cell, Op, MAX_CELLS};
use crate::script::recorder::Script;
use crate::store::bytes::put_u32;
use crate::store::geometry::{frame_count, memory_len_for, Geometry};
use crate::store::heading::Heading;
use crate::store::restart::recover;

/// A mutation and the calls that look at it.
pub type Episode = fn(&mut World, &mut Rng);

const EPISODES: [(Episode, usize); 21] = [
    (episodes::wrong_length, 5),
    (episodes::wrong_heading, 5),
    (episodes::other_heading, 4),
    (episodes::state_numbers, 12),
    (edge_episodes::sound_edges, 14),
    (edge_episodes::taken_slot, 5),
    (episodes::sound_index, 12),
    (episodes::sound_extremes, 8),
    (item_episodes::edited_record, 14),
    (item_episodes::aged_page, 14),
    (item_episodes::forged_record, 4),
    (item_episodes::edited_note, 8),
    (item_episodes::forged_note, 6),
    (item_episodes::edited_image, 14),
    (item_episodes::edited_memory, 8),
    (item_episodes::dirty_tail, 4),
    (item_episodes::copied_item, 6),
    (carry_episodes::carried_images, 3),
    (carry_episodes::carry_calls, 1),
    (episodes::silly_calls, 6),
    (episodes::odd_cells, 2),
];

/// A script of valid volumes with mutations, each undone before the next in most cases.
pub fn arbitrary_script(rng: &mut Rng, cells: usize) -> Vec<Cell> {
    let cells = cells.min(MAX_CELLS);
    let mut script = Script::default();
    while script.len() < cells {
        let geometry = match rng.chance(350) {
            true => choose_ring(rng),
            false => choose_geometry(rng),
        };
        let end = cells.min(script.len() + rng.between(150, 500));
        script = one_bench(script, geometry, end, rng);
    }
    script.cells.truncate(cells);
    script.cells
}

/// Adds one valid volume with mutations, up to cell `end` or somewhat past it.
pub fn one_bench(script: Script, geometry: Geometry, end: usize, rng: &mut Rng) -> Script {
    let style = Style::choose(rng);
    let mut world = World::make(script, geometry, rng.byte());
    let events = rng.between(10, 80);
    grow(&mut world, &style, events, rng);
    while world.script.len() < end {
        revive(&mut world, rng);
        let before = world.script.driver.clone();
        rng.weighted(&EPISODES)(&mut world, rng);
        if !(rng.chance(200) && is_healthy(&world)) {
            world.script.restore(&before);
        }
        if rng.chance(400) {
            let events = rng.between(1, 10);
            grow(&mut world, &style, events, rng);
        }
    }
    counts_out_of_range(&mut world, rng);
    world.script
}

/// Lets the history go on.
pub fn grow(world: &mut World, style: &Style, events: usize, rng: &mut Rng) {
    for _ in 0..events {
        let event = style.next(world, rng);
        world.apply(&event);
    }
}

/// Mostly gives a world after a cut a memory that fits and a state, and often one whose
/// frames are all dirty an empty memory.
pub fn revive(world: &mut World, rng: &mut Rng) {
    if frame_count(world.script.driver.memory_len).is_none() {
        world.script.resize_memory(memory_len_for(rng.between(1, 4)));
    }
    let state = &world.script.driver.state;
    let stuck = state.frames[..world.frames()].iter().all(|frame| frame.page != 0);
    if (!world.live && rng.chance(850)) || (stuck && rng.chance(600)) {
        world.live = !world.script.call(Call::Restart).is_refused();
    }
}

fn is_healthy(world: &World) -> bool {
    let driver = &world.script.driver;
    Geometry::read(driver.volume()) == Ok(world.geometry)
        && recover(driver.volume(), &world.geometry).is_ok()
        && frame_count(driver.memory_len)
            .is_some_and(|frames| driver.state.is_sound(&world.geometry, frames))
}

/// Ends with a volume and a Make whose counts are at or past their ranges, the length fitting.
fn counts_out_of_range(world: &mut World, rng: &mut Rng) {
    let counts: [usize; 4] = [
        rng.pick(&[0, 1, 2, 64, 65]),
        rng.pick(&[0, 1, 128, 129]),
        rng.pick(&[0, 1, 1024, 1025]),
        rng.pick(&[0, 1, 1024, 1025]),
    ];
    let [pages, slots, records, notes] = counts;
    let slots_at = 8 + 256 * pages;
    let records_at = slots_at + 4 + 256 * slots;
    let notes_at = records_at + 4 + 64 * records;
    let length = notes_at + 4 + 16 * notes + rng.pick(&[0, 0, 0, 1]);
    let script = &mut world.script;
    script.sizes(length, script.driver.memory_len, 256);
    let heading = rng.pick(&Heading::MADE);
    script.call(Call::Make { heading, counts: counts.map(|count| count as u32) });
    script.emit(Op::Fill { target: 0, byte: 0 });
    if length > script.driver.volume.len() {
        return;
    }
    script.poke(0..4, &heading.bytes());
    for (at, count) in [(4, pages), (slots_at, slots), (records_at, records), (notes_at, notes)] {
        let mut bytes = [0; 4];
        put_u32(&mut bytes, 0, count as u32);
        script.poke(at..at + 4, &bytes);
    }
    for kind in [Kind::Restart, Kind::Inspect, Kind::Force, Kind::Begin] {
        probe(world, kind, rng);
    }
}
