//! Archives written, broken in one way and read back.

use crate::generators::mutate::edit_record;
use crate::generators::rng::Rng;
use crate::generators::world::World;
use crate::script::cell::{Call, Op, Second};
use crate::store::answer::Answer;
use crate::store::bytes::{put_u16, put_u32, seal, u32_at};
use crate::store::geometry::{IMAGE_LEN, RECORD_LEN};
use std::ops::Range;

/// The volume's archive, whole or broken, and what the reader makes of it.
pub fn archive_and_back(world: &mut World, rng: &mut Rng) {
    let length = match world.script.call(Call::Length) {
        Answer::Length(length) => length,
        _ => world.script.driver.lent_len,
    };
    let buffer = match rng.below(6) {
        0 => rng.pick(&[length + 1, length.saturating_sub(1), length + 64, 0, 65_920]),
        _ => length,
    };
    world.script.resize_lent(buffer);
    if world.script.call(Call::Archive).is_refused() && rng.chance(600) {
        return;
    }
    world.script.emit(Op::Second(Second::Lent));
    let whole = world.script.driver.second().to_vec();
    for _ in 0..rng.between(1, 4) {
        if rng.chance(700) {
            break_archive(world, rng);
        }
        read_back(world, rng);
        world.script.poke_second(0..whole.len(), &whole);
        if world.script.driver.second_len != whole.len() {
            world.script.resize_second(whole.len());
        }
    }
}

/// Counts the archive's pages and reads it, mostly into an area of the volume's pages.
fn read_back(world: &mut World, rng: &mut Rng) {
    let pages = world.geometry.pages;
    let area = match rng.below(10) {
        0 => rng.pick(&[0, IMAGE_LEN - 1, IMAGE_LEN * pages + 1, IMAGE_LEN * 65, 65_920]),
        1 => IMAGE_LEN * rng.pick(&[pages + 1, pages - 1, 1, 64]),
        _ => IMAGE_LEN * pages,
    };
    world.script.resize_lent(area);
    if rng.chance(400) {
        world.script.emit(Op::Fill { target: 2, byte: rng.byte() });
    }
    if rng.chance(500) {
        world.script.call(Call::Pages);
    }
    world.script.call(Call::Unarchive);
}

fn break_archive(world: &mut World, rng: &mut Rng) {
    let parts = parts(world.script.driver.second());
    let length = world.script.driver.second_len;
    let records: Vec<&Part> = parts.iter().filter(|part| part.record).collect();
    match rng.below(8) {
        0 => {
            let less = rng.pick(&[1, 4, 64, 68, length]);
            world.script.resize_second(length.saturating_sub(less));
        }
        1 => world.script.resize_second(length + rng.pick(&[1, 3, 4, 64, 68, 256])),
        2 => break_count(world, &parts, rng),
        _ if records.is_empty() => {}
        3 if records.len() > 1 => {
            let (from, to) = (rng.below(records.len()), rng.below(records.len()));
            let bytes = world.script.driver.second[records[from].place.clone()].to_vec();
            world.script.poke_second(records[to].place.clone(), &bytes);
        }
        _ => break_record(world, &records, rng),
    }
}

/// One field of a record, often of a segment's first.
fn break_record(world: &mut World, records: &[&Part], rng: &mut Rng) {
    let first = rng.chance(400);
    let candidates: Vec<&&Part> =
        records.iter().filter(|part| !first || part.before == 0).collect();
    let part = candidates[rng.below(candidates.len())];
    let mut bytes = world.script.driver.second[part.place.clone()].to_vec();
    match rng.chance(350) {
        true => edit_record(&mut bytes, &world.geometry, rng),
        false => edit_link(&mut bytes, part, rng),
    }
    if rng.chance(900) {
        seal(&mut bytes);
    }
    world.script.poke_second(part.place.clone(), &bytes);
}

/// A segment's count, one off or such that 64 times it wraps to little.
fn break_count(world: &mut World, parts: &[Part], rng: &mut Rng) {
    let counts: Vec<&Part> = parts.iter().filter(|part| !part.record).collect();
    if counts.is_empty() {
        return;
    }
    let place = counts[rng.below(counts.len())].place.clone();
    let count = u32_at(&world.script.driver.second[place.clone()], 0);
    let off = [count.wrapping_add(1), count.wrapping_sub(1), 0, u32::MAX];
    let wrapped = [count | 1 << 26, count | 1 << 31, count.wrapping_add(1) | 3 << 26];
    let mut bytes = [0; 4];
    put_u32(&mut bytes, 0, if rng.chance(600) { rng.pick(&off) } else { rng.pick(&wrapped) });
    world.script.poke_second(place, &bytes);
}

/// Number, previous number, page or kind, such as the reader looks at them.
fn edit_link(bytes: &mut [u8], part: &Part, rng: &mut Rng) {
    let number = u32_at(bytes, 0);
    match rng.below(6) {
        0 => put_u32(bytes, 0, part.before),
        1 => {
            put_u32(bytes, 0, rng.pick(&[0, number.wrapping_add(1), part.before.saturating_sub(1)]))
        }
        2 => put_u32(bytes, 4, rng.pick(&[0, 1, part.before.wrapping_add(1), number])),
        3 => put_u16(bytes, 8, part.page + rng.pick(&[256, 1, 65_280])),
        4 => put_u16(bytes, 8, part.page - 1),
        // A put of one byte in place of whatever it was.
        _ => {
            bytes[10..16].copy_from_slice(&[2, 1, 0, 0, 0, 0]);
            bytes[17..60].fill(0);
        }
    }
}

/// A count or a record of an archive.
struct Part {
    place: Range<usize>,
    record: bool,
    page: u16,
    /// The number of the record before it in its segment.
    before: u32,
}

/// The parts of an archive as far as its counts go.
fn parts(archive: &[u8]) -> Vec<Part> {
    let mut parts = Vec::new();
    let (mut at, mut page) = (0, 1);
    while page <= 64 && at + 4 <= archive.len() {
        parts.push(Part { place: at..at + 4, record: false, page, before: 0 });
        let count = u32_at(archive, at) as usize;
        at += 4;
        let mut before = 0;
        for _ in 0..count.min((archive.len() - at) / RECORD_LEN) {
            parts.push(Part { place: at..at + RECORD_LEN, record: true, page, before });
            before = u32_at(archive, at);
            at += RECORD_LEN;
        }
        page += 1;
    }
    parts
}
