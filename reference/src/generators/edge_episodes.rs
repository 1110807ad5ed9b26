//! State numbers at the edge of what is sound, and one past it; slots in the index.

use crate::generators::episodes::{owe_any, probe_any, set_entry};
use crate::generators::history::chooser;
use crate::generators::rng::Rng;
use crate::generators::world::World;
use crate::script::cell::Call;
use crate::store::geometry::{MAX_FRAMES, MAX_PAGES, MAX_PENDING};
use crate::store::state::{FRAMES_AT, INDEX_AT};

/// One number at its largest sound value or one above, sometimes with a note pending_note.
pub fn sound_edges(world: &mut World, rng: &mut Rng) {
    if world.script.driver.state.pending_note.is_none() && rng.chance(400) {
        owe_any(world, rng);
    }
    let (position, bound) = match rng.below(3) {
        0 => edge_of_counts(world, rng),
        1 => edge_of_frames(world, rng),
        _ => edge_of_index(world, rng),
    };
    let value = (bound + rng.pick(&[0, 1, 1])).min(u32::MAX as usize);
    world.script.set_state(position, value as u32);
    probe_any(world, rng);
}

/// A Backup into a slot that the state's index names, of the same page or another.
pub fn taken_slot(world: &mut World, rng: &mut Rng) {
    let pages = world.geometry.pages;
    if world.geometry.slots == 0 {
        return probe_any(world, rng);
    }
    let slot = rng.between(1, world.geometry.slots) as u16;
    set_entry(world, rng.between(1, pages) as u16, 3, slot.into());
    let page = chooser(world).page(rng, |page| world.script.driver.state.frame_of(page).is_some());
    world.script.call(Call::Backup { page, slot });
}

/// A position among the counts and the pending_note note, with its largest sound value.
fn edge_of_counts(world: &World, rng: &mut Rng) -> (usize, usize) {
    let state = &world.script.driver.state;
    let geometry = &world.geometry;
    let [durable, pending, notes] =
        [state.durable, state.pending, state.notes].map(|count| count as usize);
    let records = geometry.most_records() as usize;
    match rng.below(7) {
        0 => (0, records.saturating_sub(pending)),
        1 => (1, records.saturating_sub(durable).min(MAX_PENDING)),
        2 => (
            2,
            (geometry.most_notes() as usize).saturating_sub(state.pending_note.is_some().into()),
        ),
        3 => (4, notes + rng.below(2)),
        4 => (5, geometry.pages * rng.below(2)),
        5 => (6, geometry.slots * rng.below(2)),
        _ => (7, durable),
    }
}

/// A position in the frame table with the last page, any page, or a mark not set.
fn edge_of_frames(world: &World, rng: &mut Rng) -> (usize, usize) {
    let frames = world.frames().max(1);
    let entry = FRAMES_AT + 2 * rng.below(frames);
    match rng.below(4) {
        0 => (entry, world.geometry.pages),
        1 => (entry, rng.below(world.geometry.pages)),
        2 => (entry + 1, 0),
        _ => (FRAMES_AT + 2 * frames.min(MAX_FRAMES - 1) + rng.below(2), 0),
    }
}

/// A position in the index with its largest sound value.
fn edge_of_index(world: &World, rng: &mut Rng) -> (usize, usize) {
    let state = &world.script.driver.state;
    let geometry = &world.geometry;
    let page = rng.between(1, geometry.pages) as u16;
    let entry = state.entry(page);
    let [newest, newest_durable, durable, pending] =
        [entry.newest, entry.newest_durable, state.durable, state.pending].map(|n| n as usize);
    let field = rng.below(6);
    let bound = match field {
        0 => durable + pending,
        1 => newest.min(durable),
        2 | 4 => newest_durable,
        3 => geometry.slots,
        // An entry past P, where there is one.
        _ => return (INDEX_AT + 5 * geometry.pages.min(MAX_PAGES - 1) + rng.below(5), 0),
    };
    (INDEX_AT + 5 * (usize::from(page) - 1) + field, bound)
}
