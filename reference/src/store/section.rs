//! The log and the notes as numbered items in slots. In a ring, item n lies in slot
//! ((n - 1) modulo the count) + 1, so that a later item takes an earlier one's place.

use crate::checks::fault::{require, Fault};
use crate::store::bytes::{all_zero, is_sealed, u32_at};
use crate::store::geometry::Geometry;
use std::ops::RangeInclusive;

#[derive(Clone, Copy, Debug, PartialEq, Eq)]
enum Items {
    Records,
    Notes,
}

/// One of the two sections of a volume.
#[derive(Clone, Copy)]
pub struct Section<'a> {
    volume: &'a [u8],
    geometry: &'a Geometry,
    items: Items,
}

/// What is wrong with a section's slots.
struct Faults {
    /// A slot of the run fails its checksum.
    torn: Fault,
    /// It holds another number.
    number: Fault,
    /// Before the first turn: the slot after the last item has a right checksum.
    next: Fault,
    /// Slots past that one aren't zero.
    tail: Fault,
    /// The first item is missing.
    start: Fault,
}

impl<'a> Section<'a> {
    pub fn log(volume: &'a [u8], geometry: &'a Geometry) -> Section<'a> {
        Section { volume, geometry, items: Items::Records }
    }

    pub fn notes(volume: &'a [u8], geometry: &'a Geometry) -> Section<'a> {
        Section { volume, geometry, items: Items::Notes }
    }

    /// How many slots there are.
    pub fn count(&self) -> usize {
        match self.items {
            Items::Records => self.geometry.records,
            Items::Notes => self.geometry.notes,
        }
    }

    fn slot(&self, slot: usize) -> &'a [u8] {
        match self.items {
            Items::Records => &self.volume[self.geometry.record(slot)],
            Items::Notes => &self.volume[self.geometry.note(slot)],
        }
    }

    fn slots(&self) -> impl Iterator<Item = &'a [u8]> + '_ {
        (1..=self.count()).map(|slot| self.slot(slot))
    }

    /// The bytes in the slot of item `number`, whatever they hold.
    pub fn item(&self, number: u32) -> &'a [u8] {
        self.slot((number as usize - 1) % self.count() + 1)
    }

    /// Item `number`, if it stands whole in its slot.
    pub fn standing(&self, number: u32) -> Option<&'a [u8]> {
        let item = self.item(number);
        (is_sealed(item) && u32_at(item, 0) == number).then_some(item)
    }

    /// The number of the item that shares its slot with the one after `last`, if any.
    pub fn displaced(&self, last: u32) -> Option<u32> {
        let over = (u64::from(last) + 1).checked_sub(self.count() as u64)?;
        (over > 0).then_some(over as u32)
    }

    /// Where the run that ends at `last` begins.
    pub fn first(&self, last: u32) -> u32 {
        if !self.geometry.is_ring() || self.count() == 0 {
            return 1;
        }
        let oldest = self.displaced(last).unwrap_or(1);
        match is_sealed(self.item(oldest)) {
            true => oldest,
            false => oldest + 1,
        }
    }

    /// The numbers that a restart finds, each in its slot with a right checksum.
    pub fn run(&self) -> Result<RangeInclusive<u32>, Fault> {
        match self.geometry.is_ring() {
            true => self.ring_run(),
            false => self.straight_run(),
        }
    }

    /// Items from slot 1 on; all past the first that fails its checksum are zero.
    fn straight_run(&self) -> Result<RangeInclusive<u32>, Fault> {
        let faults = self.faults();
        let last = self.slots().take_while(|item| is_sealed(item)).count();
        require(self.zero_from(last + 2), faults.tail)?;
        for number in 1..=last as u32 {
            require(self.standing(number).is_some(), faults.number)?;
        }
        Ok(1..=last as u32)
    }

    /// The run that ends at the highest number.
    fn ring_run(&self) -> Result<RangeInclusive<u32>, Fault> {
        let faults = self.faults();
        let numbers = self.slots().filter(|item| is_sealed(item)).map(|item| u32_at(item, 0));
        let last = numbers.max().unwrap_or(0);
        let first = self.first(last);
        for number in first..=last {
            require(is_sealed(self.item(number)), faults.torn)?;
            require(self.standing(number).is_some(), faults.number)?;
        }
        let next = last as usize + 1;
        if next <= self.count() {
            require(!is_sealed(self.slot(next)), faults.next)?;
            require(self.zero_from(next + 1), faults.tail)?;
            require(last == 0 || first == 1, faults.start)?;
        }
        Ok(first..=last)
    }

    fn zero_from(&self, slot: usize) -> bool {
        (slot..=self.count()).all(|slot| all_zero(self.slot(slot)))
    }

    fn faults(&self) -> Faults {
        match self.items {
            Items::Records => Faults {
                torn: Fault::LogTorn,
                number: Fault::RecordNumber,
                next: Fault::LogNext,
                tail: Fault::LogTail,
                start: Fault::LogStart,
            },
            Items::Notes => Faults {
                torn: Fault::NotesTorn,
                number: Fault::NoteNumber,
                next: Fault::NotesNext,
                tail: Fault::NotesTail,
                start: Fault::NotesStart,
            },
        }
    }
}
