//! A volume whose records and notes have turned, carried on to numbers near the largest: all
//! its numbers grow by whole turns, so that every item stays in its slot.

use crate::generators::rng::Rng;
use crate::store::bytes::{is_sealed, put_u32, seal, u32_at};
use crate::store::geometry::Geometry;
use crate::store::section::Section;

/// By how much the numbers of records and of notes grow.
#[derive(Clone, Copy, Debug, PartialEq, Eq)]
pub struct Lift {
    pub records: u32,
    pub notes: u32,
}

impl Lift {
    /// One that leaves few numbers; None where the log has not turned.
    pub fn choose(volume: &[u8], geometry: &Geometry, rng: &mut Rng) -> Option<Lift> {
        if !geometry.is_ring() {
            return None;
        }
        let last = *Section::log(volume, geometry).run().ok()?.end();
        let noted = *Section::notes(volume, geometry).run().ok()?.end();
        let records = whole_turns(last, geometry.records, rng.between(0, 12))?;
        let near_the_end = whole_turns(noted, geometry.notes, rng.between(0, 6));
        let notes = if rng.chance(600) { near_the_end.unwrap_or(0) } else { 0 };
        Some(Lift { records, notes })
    }

    /// Raises all numbers of a volume; items that fail their checksum stay.
    pub fn apply(&self, volume: &mut [u8], geometry: &Geometry) {
        for slot in 1..=geometry.records {
            self.lift_record(&mut volume[geometry.record(slot)]);
        }
        for slot in 1..=geometry.notes {
            self.lift_note(&mut volume[geometry.note(slot)]);
        }
        for page in 1..=geometry.pages {
            self.lift_image(&mut volume[geometry.page(page)], geometry);
        }
        for slot in 1..=geometry.slots {
            self.lift_image(&mut volume[geometry.slot(slot)], geometry);
        }
    }

    fn lift_record(&self, bytes: &mut [u8]) {
        if is_sealed(bytes) {
            raise(bytes, 0, self.records);
            raise(bytes, 4, self.records);
            seal(bytes);
        }
    }

    fn lift_note(&self, bytes: &mut [u8]) {
        if is_sealed(bytes) {
            raise(bytes, 0, self.notes);
            raise(bytes, 8, self.records);
            seal(bytes);
        }
    }

    pub fn lift_image(&self, bytes: &mut [u8], geometry: &Geometry) {
        if geometry.heading.image_sealed(bytes) {
            raise(bytes, 4, self.records);
            geometry.heading.seal_image(bytes);
        }
    }
}

/// Numbers to add, a multiple of `count`, so that `last` comes to within about `left` of the
/// largest. None before the first turn.
fn whole_turns(last: u32, count: usize, left: usize) -> Option<u32> {
    if count == 0 || (last as usize) < count {
        return None;
    }
    let room = (u32::MAX - last) as usize;
    let turns = room.saturating_sub(left) / count;
    Some((turns * count) as u32)
}

/// 0 means none and stays.
fn raise(bytes: &mut [u8], at: usize, by: u32) {
    let number = u32_at(bytes, at);
    if number != 0 {
        put_u32(bytes, at, number.wrapping_add(by));
    }
}
