//! Mutations of single items: one field set to a value in, at or past its range.

use crate::generators::rng::Rng;
use crate::generators::world::World;
use crate::script::recorder::Script;
use crate::store::bytes::{put_u16, put_u32, seal, u32_at};
use crate::store::geometry::{Geometry, IMAGE_LEN};
use crate::store::heading::Heading;
use std::ops::Range;

/// Edits the volume's bytes at `place`, and mostly sets the item's checksum anew.
pub fn edit_item(
    world: &mut World,
    place: Range<usize>,
    rng: &mut Rng,
    edit: impl FnOnce(&mut [u8], &mut Rng),
) {
    let mut bytes = world.script.driver.volume[place.clone()].to_vec();
    edit(&mut bytes, rng);
    if rng.chance(850) {
        seal_item(&mut bytes, world.geometry.heading, rng);
    }
    world.script.poke(place, &bytes);
}

/// Seals an item by its length; an image mostly by the sum that the heading names.
pub fn seal_item(bytes: &mut [u8], heading: Heading, rng: &mut Rng) {
    match bytes.len() {
        IMAGE_LEN if rng.chance(850) => heading.seal_image(bytes),
        IMAGE_LEN => rng.pick(&Heading::MADE).seal_image(bytes),
        _ => seal(bytes),
    }
}

/// The same in the memory.
pub fn edit_memory(
    script: &mut Script,
    place: Range<usize>,
    rng: &mut Rng,
    edit: impl FnOnce(&mut [u8], &mut Rng),
) {
    let mut bytes = script.driver.memory[place.clone()].to_vec();
    edit(&mut bytes, rng);
    if rng.chance(500) {
        seal(&mut bytes);
    }
    script.poke_memory(place, &bytes);
}

/// A number near `value`, near 0, up to `top`, or very large.
pub fn near(rng: &mut Rng, value: u32, top: usize) -> u32 {
    let inside = rng.between(0, top) as u32;
    let (up, down) = (value.wrapping_add(1), value.wrapping_sub(1));
    let (turn, top) = (value.wrapping_add(top as u32), top as u32);
    let back = value.wrapping_sub(top);
    rng.pick(&[
        0,
        1,
        up,
        down,
        inside,
        inside,
        top,
        top.wrapping_add(1),
        turn,
        back,
        u32::MAX,
        1 << 16,
    ])
}

/// A number up to the one after `last`, or one of the last few.
pub fn near_last(rng: &mut Rng, last: u32) -> u32 {
    let any = rng.between(0, last as usize + 1) as u32;
    let few = last.saturating_sub(rng.below(12) as u32);
    rng.pick(&[any, few, last.saturating_add(1)])
}

/// A page in range, or at or past its edges.
pub fn near_page(rng: &mut Rng, geometry: &Geometry) -> u16 {
    let inside = rng.between(1, geometry.pages) as u16;
    let top = geometry.pages as u16;
    rng.pick(&[0, inside, inside, inside, top + 1, 256 + inside, 65_535])
}

/// One field of a record.
pub fn edit_record(bytes: &mut [u8], geometry: &Geometry, rng: &mut Rng) {
    let log = geometry.records;
    match rng.below(10) {
        0 => put_u32(bytes, 0, near(rng, u32_at(bytes, 0), log)),
        1 | 2 => put_u32(bytes, 4, near(rng, u32_at(bytes, 4), log)),
        3 => put_u16(bytes, 8, near_page(rng, geometry)),
        4 => bytes[10] = rng.pick(&[0, 1, 2, 3, 4, 255]),
        5 => bytes[11] = rng.pick(&[0, 1, 43, 44, 45, 255]),
        6 => put_u16(bytes, 12, rng.pick(&[0, 1, 199, 200, 201, 243, 244, 65_535])),
        7 => bytes[14] = rng.pick(&[0, 1, 255]),
        8 => bytes[15] = rng.pick(&[0, 1, 255]),
        _ => bytes[rng.between(16, 59)] ^= 1 << rng.below(8),
    }
}

/// One field of a note.
pub fn edit_note(bytes: &mut [u8], geometry: &Geometry, durable: u32, rng: &mut Rng) {
    let slots = geometry.slots as u8;
    match rng.below(7) {
        0 => put_u32(bytes, 0, near(rng, u32_at(bytes, 0), geometry.notes)),
        1 => put_u16(bytes, 4, near_page(rng, geometry)),
        2 => bytes[6] = rng.pick(&[0, 1, 2, 3, 255]),
        3 | 4 => bytes[7] = rng.pick(&[0, 1, 2, slots, slots + 1, 255]),
        _ => put_u32(bytes, 8, near(rng, u32_at(bytes, 8), durable as usize)),
    }
}

/// One field of an image, its number most often.
pub fn edit_image(bytes: &mut [u8], geometry: &Geometry, durable: u32, rng: &mut Rng) {
    match rng.below(8) {
        0 => put_u16(bytes, 0, near_page(rng, geometry)),
        1 => bytes[rng.between(2, 3)] = rng.pick(&[0, 1, 128]),
        2 => bytes[rng.between(8, 251)] ^= 1 << rng.below(8),
        3 => bytes[rng.between(252, 255)] ^= 1 << rng.below(8),
        _ => put_u32(bytes, 4, near(rng, u32_at(bytes, 4), durable as usize)),
    }
}

/// An image of `page` with this number and a body near the old one.
pub fn forge_image(bytes: &mut [u8], page: u16, lsn: u32, rng: &mut Rng) {
    put_u16(bytes, 0, page);
    put_u16(bytes, 2, 0);
    put_u32(bytes, 4, lsn);
    bytes[rng.between(8, 251)] = rng.byte();
}
