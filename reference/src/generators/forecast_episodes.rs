//! Volumes whose images are older, newer or other than their log asks for, looked at by a forecast.

use crate::generators::mutate::{edit_item, forge_image};
use crate::generators::rng::Rng;
use crate::generators::world::World;
use crate::script::cell::Call;
use crate::store::geometry::Geometry;
use crate::store::note::{Note, NoteKind};
use crate::store::recovered::Recovered;
use crate::store::state::State;
use std::ops::Range;

/// Pages whose images are changed at most.
const MOST_PAGES: usize = 3;

/// A forecast, mostly of a volume with images and notes changed so that it still restarts.
pub fn look_ahead(world: &mut World, rng: &mut Rng) {
    for _ in 0..rng.between(1, 4) {
        if rng.chance(800) {
            age_images(world, rng);
        }
        world.script.call(Call::Forecast);
    }
    if rng.chance(200) {
        world.script.call(Call::Inspect { page: rng.between(1, world.geometry.pages) as u16 });
    }
}

/// What the changes of images go by.
struct Found {
    geometry: Geometry,
    state: State,
    /// Numbers of the page's records in the run.
    chain: Vec<u32>,
}

fn found(world: &World, page: u16) -> Option<Found> {
    let Recovered { geometry, log, state, .. } = Recovered::read(world.volume()).ok()?;
    let of_page = log.records.iter().filter(|record| record.page == page);
    let chain = of_page.map(|record| record.number).collect();
    Some(Found { geometry, state, chain })
}

fn age_images(world: &mut World, rng: &mut Rng) {
    for _ in 0..rng.between(1, MOST_PAGES) {
        let page = rng.between(1, world.geometry.pages) as u16;
        if let Some(found) = found(world, page).filter(|found| !found.chain.is_empty()) {
            if rng.chance(600) {
                note_again(world, page, &found, rng);
            }
        }
        if let Some(found) = found(world, page) {
            let slot = usize::from(found.state.entry(page).backup_slot);
            if rng.chance(850) {
                let lsn = own_number(page, &found, rng);
                age(world, found.geometry.page(page.into()), page, lsn, rng);
            }
            if slot != 0 && rng.chance(700) {
                let lsn = backup_number(page, &found, rng);
                age(world, found.geometry.slot(slot), page, lsn, rng);
            }
        }
    }
}

/// Puts a written or a backup's note after the others, where it displaces none that counts.
fn note_again(world: &mut World, page: u16, found: &Found, rng: &mut Rng) {
    let (state, geometry) = (&found.state, &found.geometry);
    if state.notes_room(world.volume(), geometry).is_err() {
        return;
    }
    let number = state.notes + 1;
    let entry = state.entry(page);
    let free = (1..=geometry.slots as u8).find(|&slot| !state.slot_in_index(slot));
    let (kind, slot, least) = match free {
        Some(slot) if rng.chance(500) => (NoteKind::BackedUp, slot, entry.backup_lsn),
        _ => (NoteKind::Written, 0, entry.written),
    };
    let numbers: Vec<u32> = found.chain.iter().copied().filter(|&lsn| lsn >= least).collect();
    if !numbers.is_empty() {
        let note = Note { number, page, kind, slot, lsn: rng.pick(&numbers) };
        world.script.poke(geometry.note_place(number), &note.encode());
    }
}

/// A number of the page's chain, of its backup, of no record of it, or above the log.
fn own_number(page: u16, found: &Found, rng: &mut Rng) -> u32 {
    let state = &found.state;
    let entry = state.entry(page);
    match rng.below(8) {
        0..=2 if !found.chain.is_empty() => rng.pick(&found.chain),
        3 => entry.backup_lsn,
        4 | 5 => rng.between(0, state.durable as usize) as u32,
        6 => state.durable.saturating_add(rng.between(1, 2) as u32),
        _ => entry.newest_durable,
    }
}

/// Mostly the noted number.
fn backup_number(page: u16, found: &Found, rng: &mut Rng) -> u32 {
    match rng.chance(650) {
        true => found.state.entry(page).backup_lsn,
        false => own_number(page, found, rng),
    }
}

/// An image of the page with this number, mostly passing; or the present one with a byte changed.
fn age(world: &mut World, place: Range<usize>, page: u16, lsn: u32, rng: &mut Rng) {
    if rng.chance(850) {
        return edit_item(world, place, rng, |bytes, rng| forge_image(bytes, page, lsn, rng));
    }
    let at = place.start + rng.below(place.len());
    let byte = world.volume()[at] ^ 1;
    world.script.poke(at..at + 1, &[byte]);
}
