//! Two volumes side by side: with a common beginning, and one or both of them broken.

use crate::checks::abstract_log::Entry;
use crate::generators::arbitrary::grow;
use crate::generators::history::{choose_geometry, choose_ring, Style};
use crate::generators::mirror::{altered, changes_of, diverged, next_call, other_geometry};
use crate::generators::rng::Rng;
use crate::generators::world::World;
use crate::script::cell::{Call, Op, Second};
use crate::script::recorder::Script;
use crate::store::bytes::{put_u32, seal};
use crate::store::calls::make;
use crate::store::geometry::{Geometry, RECORD_LEN};
use crate::store::note::{Note, NoteKind};
use crate::store::record::{Change, Record};
use crate::store::restart::Log;
use crate::store::section::Section;

/// Records that are taken off the end of a log at most.
const MOST_TAKEN: usize = 3;

/// The volume beside a copy of it.
pub fn beside_a_copy(world: &mut World, rng: &mut Rng) {
    world.script.emit(Op::Second(Second::Volume));
    compare_changed(world, rng);
}

/// The two volumes as they are, and one or both of them changed somewhat.
fn compare_changed(world: &mut World, rng: &mut Rng) {
    let second = world.script.driver.second().to_vec();
    let volume = world.volume().to_vec();
    world.script.call(Call::Compare);
    for _ in 0..rng.between(2, 5) {
        let (in_second, in_first) = rng.pick(&[(true, false), (false, true), (true, true)]);
        if in_second {
            put_volume(world, true, &changed(&second, rng));
        }
        if in_first {
            put_volume(world, false, &changed(&volume, rng));
        }
        world.script.call(Call::Compare);
        put_volume(world, true, &second);
        put_volume(world, false, &volume);
    }
}

/// Pokes what differs and sets the length in use.
fn put_volume(world: &mut World, second: bool, bytes: &[u8]) {
    let script = &mut world.script;
    let len = bytes.len().min(script.driver.volume.len());
    match second {
        true => script.poke_second(0..len, &bytes[..len]),
        false => script.poke(0..len, &bytes[..len]),
    }
    let driver = &script.driver;
    match second {
        true if driver.second_len != len => script.resize_second(len),
        false if driver.volume_len != len => script.sizes(len, driver.memory_len, driver.lent_len),
        _ => {}
    }
}

/// One record altered, the last ones taken off, or a rule broken.
fn changed(volume: &[u8], rng: &mut Rng) -> Vec<u8> {
    let mut volume = volume.to_vec();
    let Ok(geometry) = Geometry::read(&volume) else {
        return volume;
    };
    match rng.below(18) {
        0 => volume[rng.pick(&[0, 3, 4])] ^= 1 << rng.below(8),
        1 => volume.push(0),
        2 => {
            let record = rng.between(1, geometry.records);
            volume[geometry.record(record)][rng.below(RECORD_LEN)] ^= 1 << rng.below(8);
        }
        3 | 4 if geometry.notes > 0 => {
            let kind = NoteKind::Written;
            let note = Note { number: 1, page: rng.between(0, 65) as u16, kind, slot: 0, lsn: 0 };
            volume[geometry.note(1)].copy_from_slice(&note.encode());
        }
        5..=7 => take_off(&mut volume, &geometry, rng),
        8 | 9 => {
            // Log and notes empty: nothing has left.
            let start = geometry.record(1).start;
            let mut empty = volume.clone();
            make(&mut empty, geometry.heading, geometry.counts());
            volume[start..].copy_from_slice(&empty[start..]);
        }
        10 | 11 => give_last_away(&mut volume, &geometry, rng),
        _ => alter_record(&mut volume, &geometry, rng),
    }
    volume
}

/// The last record becomes another page's.
fn give_last_away(volume: &mut [u8], geometry: &Geometry, rng: &mut Rng) {
    let Ok(log) = Log::read(volume, geometry) else {
        return;
    };
    let Some((last, earlier)) = log.records.split_last() else {
        return;
    };
    let page = rng.between(1, geometry.pages) as u16;
    let newest = earlier.iter().rev().find(|record| record.page == page);
    let mut record = Record { page, previous: newest.map_or(0, |record| record.number), ..*last };
    if newest.is_none() {
        record.change = Change::Format { fill: rng.byte() };
    }
    volume[geometry.record_place(record.number)].copy_from_slice(&record.encode());
}

/// The last records gone, and the notes that might name them.
fn take_off(volume: &mut [u8], geometry: &Geometry, rng: &mut Rng) {
    let Ok(run) = Section::log(volume, geometry).run() else {
        return;
    };
    for number in run.rev().take(rng.between(1, MOST_TAKEN)) {
        volume[geometry.record_place(number)].fill(0);
    }
    let notes = geometry.note(1).start;
    volume[notes..].fill(0);
}

/// A record with another change in it; mostly the log stays right.
fn alter_record(volume: &mut [u8], geometry: &Geometry, rng: &mut Rng) {
    let Some(number) = some_record(volume, geometry, rng) else {
        return;
    };
    let place = geometry.record_place(number);
    let Some(mut record) = Record::decode(&volume[place.clone()]) else {
        return;
    };
    match rng.below(3) {
        0 => record.payload[0] ^= 1 << rng.below(8),
        _ => record.change = altered(record.change, rng),
    }
    let mut bytes = record.encode();
    if rng.chance(50) {
        put_u32(&mut bytes, 4, number);
        seal(&mut bytes);
    }
    volume[place].copy_from_slice(&bytes);
}

fn some_record(volume: &[u8], geometry: &Geometry, rng: &mut Rng) -> Option<u32> {
    let run = Section::log(volume, geometry).run().ok()?;
    let numbers: Vec<u32> = run.collect();
    (!numbers.is_empty()).then(|| rng.pick(&numbers))
}

/// Adds a history, a copy of its volume, and another store that follows it, compared as it
/// goes; up to cell `end` or somewhat past it.
pub fn one_mirror(script: Script, end: usize, rng: &mut Rng) -> Script {
    let (script, geometry, changes) = first_box(script, rng);
    let changes = diverged(changes, rng);
    let geometry = other_geometry(&geometry, changes.len(), rng);
    let style = Style::quiet(rng);
    let mut world = World::make(script, geometry, rng.byte());
    while world.script.len() < end {
        let call = match world.live && rng.chance(850) {
            true => next_call(&world, &changes, rng),
            false => None,
        };
        match call {
            Some(call) => _ = world.script.call(call),
            None if world.live && rng.chance(300) => break,
            None => grow(&mut world, &style, 1, rng),
        }
        if rng.chance(60) {
            world.script.call(Call::Compare);
        }
    }
    compare_changed(&mut world, rng);
    for page in 1..=world.geometry.pages.min(4) as u16 {
        world.script.call(Call::Inspect { page });
    }
    world.script
}

/// A history whose volume goes to the second buffer, and its changes.
fn first_box(script: Script, rng: &mut Rng) -> (Script, Geometry, Vec<Entry>) {
    let geometry = match rng.chance(300) {
        true => choose_ring(rng),
        false => choose_geometry(rng),
    };
    let style = Style::choose(rng);
    let mut world = World::make(script, geometry, rng.byte());
    let events = rng.between(5, 60);
    grow(&mut world, &style, events, rng);
    world.script.emit(Op::Second(Second::Volume));
    let changes = changes_of(world.volume());
    (world.script, geometry, changes)
}
