//! Mutations of lengths, headings, states and arguments, each with calls that look at it.

use crate::generators::choose::{payload, Kind};
use crate::generators::history::chooser;
use crate::generators::mutate::{edit_item, forge_image, near, near_last};
use crate::generators::rng::Rng;
use crate::generators::world::World;
use crate::script::cell::{Call, Cell, Op, Second, CELL_LEN};
use crate::store::bytes::{put_u32, u32_at};
use crate::store::geometry::{IMAGE_LEN, MAX_FRAMES};
use crate::store::heading::{Heading, HEADING_LEN};
use crate::store::state::{FRAMES_AT, INDEX_AT, NUMBERS};

const ALL_KINDS: [Kind; 12] = [
    Kind::Restart,
    Kind::Begin,
    Kind::Load,
    Kind::Change,
    Kind::Force,
    Kind::Write,
    Kind::Backup,
    Kind::Note,
    Kind::Inspect,
    Kind::Release,
    Kind::Forecast,
    Kind::Length,
];

/// A call of this kind, mostly with arguments that suit the state.
pub fn probe(world: &mut World, kind: Kind, rng: &mut Rng) {
    let call = match rng.chance(80) {
        true => chooser(world).silly(kind, rng),
        false => chooser(world).sensible(kind, rng),
    };
    world.script.call(call);
}

pub fn probe_any(world: &mut World, rng: &mut Rng) {
    for _ in 0..rng.between(1, 3) {
        let kind = rng.pick(&ALL_KINDS);
        probe(world, kind, rng);
    }
}

/// A Load of this page into a frame that suits.
pub fn probe_load(world: &mut World, page: u16, rng: &mut Rng) {
    if let Call::Load { frame, .. } = chooser(world).sensible(Kind::Load, rng) {
        world.script.call(Call::Load { page, frame });
    }
}

/// Looks at a page through Inspect, Load or Restart.
pub fn look_at(world: &mut World, page: u16, rng: &mut Rng) {
    let choice = rng.below(8);
    if choice == 0 {
        world.script.call(Call::Restart);
    }
    if choice <= 3 {
        world.script.call(Call::Inspect { page });
    }
    if choice >= 3 {
        probe_load(world, page, rng);
    }
}

pub fn wrong_length(world: &mut World, rng: &mut Rng) {
    let driver = &world.script.driver;
    let (mut volume, mut memory, mut buffer) =
        (driver.volume_len, driver.memory_len, driver.lent_len);
    let shift = |rng: &mut Rng, len: usize, by: &[usize]| {
        let by = rng.pick(by);
        if rng.chance(500) {
            len + by
        } else {
            len.saturating_sub(by)
        }
    };
    match rng.below(3) {
        0 => volume = shift(rng, volume, &[1, 4, 16, 64, 256, volume, volume - 3, volume - 7]),
        1 => memory = shift(rng, memory, &[1, 64, 128, 256, 512, memory - 1_024, memory, 5_376]),
        _ => buffer = rng.pick(&[0, 1, 255, 257, 512, 65_920, 65_921]),
    }
    world.script.sizes(volume, memory, buffer);
    if buffer != IMAGE_LEN {
        probe(world, Kind::Inspect, rng);
    }
    probe_any(world, rng);
}

/// A wrong heading byte or count, or one note more or less with its length.
pub fn wrong_heading(world: &mut World, rng: &mut Rng) {
    let geometry = world.geometry;
    let last_count = geometry.note(1).start - 4;
    let places = [4, geometry.slot(1).start - 4, geometry.record(1).start - 4, last_count];
    match rng.below(3) {
        0 => {
            let at = rng.below(4);
            let byte = world.volume()[at] ^ (1 << rng.below(8));
            world.script.poke(at..at + 1, &[byte]);
        }
        1 => {
            let at = rng.pick(&places);
            let mut count = [0; 4];
            put_u32(&mut count, 0, near(rng, u32_at(world.volume(), at), 1_024));
            world.script.poke(at..at + 4, &count);
        }
        _ => {
            let notes = rng.pick(&[geometry.notes + 1, geometry.notes.saturating_sub(1), 1_025]);
            let mut count = [0; 4];
            put_u32(&mut count, 0, notes as u32);
            let (memory, buffer) = (world.script.driver.memory_len, world.script.driver.lent_len);
            world.script.sizes(last_count + 4 + 16 * notes, memory, buffer);
            world.script.poke(last_count..last_count + 4, &count);
        }
    }
    probe_any(world, rng);
}

/// Another of the known headings: the same items, judged by another rule.
pub fn other_heading(world: &mut World, rng: &mut Rng) {
    world.script.poke(0..HEADING_LEN, &rng.pick(&Heading::ALL).bytes());
    look_at(world, rng.between(1, world.geometry.pages) as u16, rng);
    probe_any(world, rng);
}

/// One to three state numbers in, at or past their ranges.
pub fn state_numbers(world: &mut World, rng: &mut Rng) {
    for _ in 0..rng.between(1, 3) {
        let page = rng.below(world.geometry.pages + 1);
        let frame = rng.below(world.frames() + 1).min(MAX_FRAMES - 1);
        let position = match rng.below(4) {
            0 => rng.below(FRAMES_AT),
            1 => FRAMES_AT + 2 * frame + rng.below(2),
            2 => INDEX_AT + 5 * page.min(63) + rng.below(5),
            _ => rng.below(NUMBERS),
        };
        let value = world.script.driver.state.numbers()[position];
        let top =
            rng.pick(&[2, world.geometry.pages, world.geometry.slots, world.geometry.records]);
        world.script.set_state(position, near(rng, value, top));
    }
    probe_any(world, rng);
}

/// Sets one of the five numbers of a page's index entry.
pub fn set_entry(world: &mut World, page: u16, field: usize, value: u32) {
    let position = INDEX_AT + 5 * (usize::from(page) - 1) + field;
    if world.script.driver.state.numbers()[position] != value {
        world.script.set_state(position, value);
    }
}

/// A page's index entry that is sound but need not fit the volume, then a Load.
pub fn sound_index(world: &mut World, rng: &mut Rng) {
    let state = world.script.driver.state;
    let page = chooser(world).page(rng, |page| state.frame_of(page).is_none());
    if rng.chance(400) {
        let newest = near_last(rng, state.durable).min(state.durable);
        set_entry(world, page, 0, newest);
        set_entry(world, page, 1, newest);
    }
    let top = world.script.driver.state.entry(page).newest_durable;
    let backup = near_last(rng, top).min(top);
    let slot = rng.between(0, world.geometry.slots);
    set_entry(world, page, 2, near_last(rng, top).min(top));
    set_entry(world, page, 3, slot as u32);
    set_entry(world, page, 4, backup);
    if slot != 0 && rng.chance(600) {
        let place = world.geometry.slot(slot);
        let edit = |bytes: &mut [u8], rng: &mut Rng| forge_image(bytes, page, backup, rng);
        edit_item(world, place, rng, edit);
    }
    if rng.chance(500) {
        let place = world.geometry.page(page.into());
        let lsn = near_last(rng, top);
        let edit = |bytes: &mut [u8], rng: &mut Rng| forge_image(bytes, page, lsn, rng);
        edit_item(world, place, rng, edit);
    }
    look_at(world, page, rng);
}

/// Counts at their limits in a state that stays sound where it can.
pub fn sound_extremes(world: &mut World, rng: &mut Rng) {
    let geometry = world.geometry;
    let state = world.script.driver.state;
    let room = geometry.most_records().saturating_sub(state.durable);
    let kinds: &[Kind] = match rng.below(5) {
        0 | 1 => {
            world.script.set_state(1, room.min(16));
            &[Kind::Begin, Kind::Change, Kind::Force]
        }
        2 => {
            world.script.set_state(0, geometry.most_records().saturating_sub(state.pending));
            &[Kind::Begin, Kind::Change, Kind::Force, Kind::Write]
        }
        3 => {
            world.script.set_state(2, geometry.most_notes());
            &[Kind::Write, Kind::Backup, Kind::Note]
        }
        _ => {
            owe_any(world, rng);
            &[Kind::Write, Kind::Backup, Kind::Note, Kind::Note]
        }
    };
    for _ in 0..rng.between(1, 2) {
        let kind = rng.pick(kinds);
        probe(world, kind, rng);
    }
}

/// An pending_note note that is sound but need not fit the volume.
pub fn owe_any(world: &mut World, rng: &mut Rng) {
    let state = world.script.driver.state;
    let slot = rng.below(2) * rng.between(0, world.geometry.slots);
    let kind = 1 + usize::from(slot != 0);
    let page = rng.between(1, world.geometry.pages);
    let lsn = rng.between(0, state.durable as usize);
    let pending_note = [kind, (state.notes as usize + 1).min(u32::MAX as usize), page, slot, lsn];
    for (position, value) in (3..8).zip(pending_note) {
        world.script.set_state(position, value as u32);
    }
}

pub fn silly_calls(world: &mut World, rng: &mut Rng) {
    for _ in 0..rng.between(1, 4) {
        let kind = rng.pick(&ALL_KINDS);
        let call = chooser(world).silly(kind, rng);
        world.script.call(call);
    }
}

/// Cells that the driver skips, and pokes over the ends of its buffers.
pub fn odd_cells(world: &mut World, rng: &mut Rng) {
    let mut cell: Cell = [0; CELL_LEN];
    rng.fill(&mut cell);
    cell[0] = rng.pick(&[0, 31, 255]);
    world.script.emit_cell(cell);
    cell[0] = 5;
    cell[1] = rng.pick(&[0, 4, 255]);
    world.script.emit_cell(cell);
    world.script.emit(Op::Fill { target: 4, byte: 0 });
    let bytes = payload(rng);
    world.script.emit(Op::Poke { at: 131_190, count: 200, bytes });
    world.script.emit(Op::PokeMemory { at: 5_370, count: 44, bytes });
    world.script.emit(Op::Poke { at: u32::MAX, count: 44, bytes });
    odd_second_cells(world, rng);
    for (position, value) in [(360, 0), (3, 3), (6, 256), (8, 65_536), (9, 2), (u32::MAX, 1)] {
        world.script.emit(Op::SetState { position, value });
    }
}

/// Cells of the second buffer at its edges, and one that is skipped.
fn odd_second_cells(world: &mut World, rng: &mut Rng) {
    let bytes = payload(rng);
    let length = rng.pick(&[0, 1, 256, 131_199, 131_200, 131_201, u32::MAX]);
    world.script.emit(Op::Fill { target: 3, byte: rng.byte() });
    world.script.emit(Op::PokeSecond { at: 131_190, count: 200, bytes });
    world.script.emit(Op::PokeSecond { at: u32::MAX, count: 1, bytes });
    for second in [Second::Volume, Second::Lent, Second::Length(length)] {
        world.script.emit(Op::Second(second));
    }
    let mut cell: Cell = [0; CELL_LEN];
    (cell[0], cell[1]) = (27, rng.pick(&[3, 255]));
    world.script.emit_cell(cell);
}
