//! Mutations of records, notes, images and their bytes in memory, each with calls that look
//! at it.

use crate::generators::choose::{change, payload, Kind};
use crate::generators::episodes::{look_at, probe, probe_any, probe_load, set_entry};
use crate::generators::history::chooser;
use crate::generators::mutate::{
    edit_image, edit_item, edit_memory, edit_note, edit_record, forge_image, near_last, near_page,
};
use crate::generators::rng::Rng;
use crate::generators::world::World;
use crate::script::cell::Call;
use crate::store::bytes::put_u16;
use crate::store::geometry::{frame_place, pending_place, IMAGE_LEN};
use crate::store::note::{Note, NoteKind};
use crate::store::record::Record;

/// A record of a page's chain, or any up to the slot after, with one field changed; mostly
/// the page's own image fails, so that the walk comes to it.
pub fn edited_record(world: &mut World, rng: &mut Rng) {
    let geometry = world.geometry;
    let page = chooser(world).page(rng, |page| chooser(world).loadable(page));
    let chain = chain_of(world, page);
    let last = (world.script.driver.state.durable as usize + 1).min(geometry.records);
    let place = match chain.is_empty() || rng.chance(200) {
        true => geometry.record(rng.between(1, last)),
        false => geometry.record_place(rng.pick(&chain)),
    };
    edit_item(world, place, rng, |bytes, rng| edit_record(bytes, &geometry, rng));
    if rng.chance(750) {
        let at = geometry.page(page.into()).start + rng.below(IMAGE_LEN);
        let byte = world.volume()[at] ^ 1;
        world.script.poke(at..at + 1, &[byte]);
    }
    look_at(world, page, rng);
}

/// Numbers of the records on disk that name `page`, up to the durable count.
fn chain_of(world: &World, page: u16) -> Vec<u32> {
    let last = world.script.driver.state.durable;
    let first = last.saturating_sub(world.geometry.records as u32) + 1;
    let names_page = |&number: &u32| {
        Record::page_of(&world.volume()[world.geometry.record_place(number)]) == page
    };
    (first..=last).filter(names_page).collect()
}

/// Own image, backup and written note of a page at any of its numbers, through the state's
/// index for a Load or through notes on disk for an Inspect.
pub fn aged_page(world: &mut World, rng: &mut Rng) {
    let geometry = world.geometry;
    let page = chooser(world).page(rng, |page| chooser(world).loadable(page));
    let chain = chain_of(world, page);
    if chain.is_empty() || geometry.slots == 0 {
        return probe_any(world, rng);
    }
    let state = world.script.driver.state;
    let slot = rng.between(1, geometry.slots) as u8;
    let [own, backup, written] = [(); 3].map(|()| rng.pick(&chain));
    for (place, lsn) in [(geometry.page(page.into()), own), (geometry.slot(slot.into()), backup)] {
        edit_item(world, place, rng, |bytes, rng| forge_image(bytes, page, lsn, rng));
    }
    let turns = geometry.is_ring() && geometry.notes > 2 && state.notes < u32::MAX - 1;
    let room = turns || (state.notes as usize) + 2 <= geometry.notes;
    if room && rng.chance(500) {
        let number = state.notes + 1;
        let lsn = written.max(state.entry(page).written);
        let first = Note { number, page, kind: NoteKind::Written, slot: 0, lsn };
        let second =
            Note { number: number + 1, kind: NoteKind::BackedUp, slot, lsn: backup, ..first };
        world.script.poke(geometry.note_place(number), &first.encode());
        world.script.poke(geometry.note_place(number + 1), &second.encode());
        world.script.call(Call::Inspect { page });
        return;
    }
    for (field, value) in [(2, written), (3, slot.into()), (4, backup)] {
        set_entry(world, page, field, value);
    }
    probe_load(world, page, rng);
}

/// A record put after the durable ones, right or nearly so.
pub fn forged_record(world: &mut World, rng: &mut Rng) {
    let geometry = world.geometry;
    let state = world.script.driver.state;
    let number = state.durable.saturating_add(1).min(geometry.most_records());
    let page = rng.between(1, geometry.pages) as u16;
    let previous = rng.pick(&[state.entry(page).newest_durable, 0, state.durable]);
    let record = Record { number, previous, page, change: change(rng), payload: payload(rng) };
    let place = geometry.record_place(number);
    world.script.poke(place.clone(), &record.encode());
    if rng.chance(300) {
        edit_item(world, place, rng, |bytes, rng| edit_record(bytes, &geometry, rng));
    }
    look_at(world, page, rng);
}

pub fn edited_note(world: &mut World, rng: &mut Rng) {
    let geometry = world.geometry;
    let state = world.script.driver.state;
    let last = (state.notes as usize + 1).min(geometry.notes);
    if last == 0 {
        return probe_any(world, rng);
    }
    let place = geometry.note(rng.between(1, last));
    edit_item(world, place, rng, |bytes, rng| edit_note(bytes, &geometry, state.durable, rng));
    look_at(world, rng.between(1, geometry.pages) as u16, rng);
}

/// A note put after the stored ones, right or nearly so.
pub fn forged_note(world: &mut World, rng: &mut Rng) {
    let geometry = world.geometry;
    let state = world.script.driver.state;
    if geometry.notes == 0 {
        return probe_any(world, rng);
    }
    let number = state.notes.saturating_add(1).min(geometry.most_notes());
    let page = rng.between(1, geometry.pages) as u16;
    let newest = state.entry(page).newest_durable;
    let any = near_last(rng, state.durable);
    let chain = chain_of(world, page);
    let lsn = match chain.is_empty() || rng.chance(400) {
        true => rng.pick(&[newest, newest, any]),
        false => rng.pick(&chain),
    };
    let (kind, slot) = match rng.chance(400) {
        true => (NoteKind::Written, rng.pick(&[0, 0, 0, 1])),
        false => (NoteKind::BackedUp, rng.between(0, geometry.slots + 1) as u8),
    };
    let note = Note { number, page, kind, slot, lsn };
    world.script.poke(geometry.note_place(number), &note.encode());
    look_at(world, page, rng);
}

/// A page's own image or its backup with a field changed, or forged whole.
pub fn edited_image(world: &mut World, rng: &mut Rng) {
    let geometry = world.geometry;
    let state = world.script.driver.state;
    let page = chooser(world).page(rng, |page| chooser(world).loadable(page));
    let slot = usize::from(state.entry(page).backup_slot);
    let noted = (1..=geometry.slots).contains(&slot);
    let place = match noted && rng.chance(400) {
        true => geometry.slot(slot),
        false => geometry.page(page.into()),
    };
    let durable = state.durable;
    edit_item(world, place, rng, |bytes, rng| match rng.below(4) {
        0 => forge_image(bytes, page, near_last(rng, durable), rng),
        _ => edit_image(bytes, &geometry, durable, rng),
    });
    look_at(world, page, rng);
}

/// A frame's or a pending record's bytes changed, then the calls that store them.
pub fn edited_memory(world: &mut World, rng: &mut Rng) {
    let geometry = world.geometry;
    let state = world.script.driver.state;
    if rng.chance(400) {
        if state.pending == 0 {
            probe(world, Kind::Change, rng);
        }
        let place = pending_place(state.durable.saturating_add(1));
        edit_memory(&mut world.script, place, rng, |bytes, rng| match rng.chance(500) {
            true => edit_record(bytes, &geometry, rng),
            false => put_u16(bytes, 8, near_page(rng, &geometry)),
        });
        return probe(world, Kind::Force, rng);
    }
    let page = chooser(world).page(rng, |page| state.frame_of(page).is_some());
    let place = frame_place(state.frame_of(page).unwrap_or(1));
    edit_memory(&mut world.script, place, rng, |bytes, rng| {
        edit_image(bytes, &geometry, state.durable, rng)
    });
    for _ in 0..2 {
        let kind = rng.pick(&[Kind::Write, Kind::Backup, Kind::Change, Kind::Note]);
        probe(world, kind, rng);
    }
}

/// A byte that is not zero somewhere after the durable records or stored notes.
pub fn dirty_tail(world: &mut World, rng: &mut Rng) {
    let geometry = world.geometry;
    let state = &world.script.driver.state;
    let (section, used, count, item_len) = match rng.chance(500) || geometry.notes == 0 {
        true => (geometry.record(1).start, state.durable, geometry.records, 64),
        false => (geometry.note(1).start, state.notes, geometry.notes, 16),
    };
    let at = section + used as usize % (count + 1) * item_len + rng.below(4 * item_len);
    if at < world.volume().len() {
        let byte = world.volume()[at] ^ (1 << rng.below(8));
        world.script.poke(at..at + 1, &[byte]);
    }
    look_at(world, rng.between(1, geometry.pages) as u16, rng);
}

/// One item copied over another of its section.
pub fn copied_item(world: &mut World, rng: &mut Rng) {
    let geometry = world.geometry;
    let state = world.script.driver.state;
    let place = |rng: &mut Rng, section: usize| match section {
        0 => geometry.page(rng.between(1, geometry.pages)),
        1 => geometry.slot(rng.between(1, geometry.slots.max(1))),
        2 => geometry.record(rng.between(1, (state.durable as usize + 1).min(geometry.records))),
        _ => geometry.note(rng.between(1, (state.notes as usize + 1).min(geometry.notes.max(1)))),
    };
    let section = match rng.below(4) {
        1 if geometry.slots == 0 => 0,
        3 if geometry.notes == 0 => 2,
        section => section,
    };
    let bytes = world.volume()[place(rng, section)].to_vec();
    let target = place(rng, section);
    world.script.poke(target, &bytes);
    look_at(world, rng.between(1, geometry.pages) as u16, rng);
}
