//! Where the sections and items of a volume lie.

use crate::checks::fault::{require, Fault};
use crate::store::bytes::{put_u32, u32_at};
use crate::store::heading::Heading;
use std::ops::{Range, RangeInclusive};

pub const IMAGE_LEN: usize = 256;
pub const RECORD_LEN: usize = 64;
pub const NOTE_LEN: usize = 16;

/// Largest P and F: the sizes of the index and of the frame table.
pub const MAX_PAGES: usize = 64;
pub const MAX_FRAMES: usize = 16;
pub const MAX_PENDING: usize = 16;

/// Bytes of memory before the first frame.
const PENDING_LEN: usize = MAX_PENDING * RECORD_LEN;

const PAGE_COUNTS: RangeInclusive<u32> = 1..=MAX_PAGES as u32;
const SLOT_COUNTS: RangeInclusive<u32> = 0..=128;
const RECORD_COUNTS: RangeInclusive<u32> = 1..=1024;
const NOTE_COUNTS: RangeInclusive<u32> = 0..=1024;

/// The heading, and the counts P, B, L and N, all in range.
#[derive(Clone, Copy, Debug, PartialEq, Eq)]
pub struct Geometry {
    pub heading: Heading,
    pub pages: usize,
    pub slots: usize,
    pub records: usize,
    pub notes: usize,
}

impl Geometry {
    /// None if a count is out of range.
    pub fn new(heading: Heading, [pages, slots, records, notes]: [u32; 4]) -> Option<Geometry> {
        Some(Geometry {
            heading,
            pages: count_in(pages, PAGE_COUNTS)?,
            slots: count_in(slots, SLOT_COUNTS)?,
            records: count_in(records, RECORD_COUNTS)?,
            notes: count_in(notes, NOTE_COUNTS)?,
        })
    }

    /// The geometry of a volume, unless heading, a count or the length is wrong.
    pub fn read(volume: &[u8]) -> Result<Geometry, Fault> {
        let heading = Heading::read(volume).ok_or(Fault::Heading)?;
        let count = |at, range, fault| {
            let count = count_at(volume, at).ok_or(Fault::Length)?;
            count_in(count, range).ok_or(fault)
        };
        let pages = count(4, PAGE_COUNTS, Fault::PageCount)?;
        let slots_at = 8 + pages * IMAGE_LEN;
        let slots = count(slots_at, SLOT_COUNTS, Fault::SlotCount)?;
        let records_at = slots_at + 4 + slots * IMAGE_LEN;
        let records = count(records_at, RECORD_COUNTS, Fault::RecordCount)?;
        let notes_at = records_at + 4 + records * RECORD_LEN;
        let notes = count(notes_at, NOTE_COUNTS, Fault::NoteCount)?;
        let geometry = Geometry { heading, pages, slots, records, notes };
        require(volume.len() == geometry.volume_len(), Fault::Length)?;
        Ok(geometry)
    }

    /// Makes an empty volume: heading, counts and zeros.
    pub fn format(&self, volume: &mut [u8]) {
        volume.fill(0);
        volume[..4].copy_from_slice(&self.heading.bytes());
        put_u32(volume, 4, self.pages as u32);
        put_u32(volume, self.slots_at() - 4, self.slots as u32);
        put_u32(volume, self.records_at() - 4, self.records as u32);
        put_u32(volume, self.notes_at() - 4, self.notes as u32);
    }

    pub fn volume_len(&self) -> usize {
        self.notes_at() + self.notes * NOTE_LEN
    }

    pub fn counts(&self) -> [u32; 4] {
        [self.pages, self.slots, self.records, self.notes].map(|count| count as u32)
    }

    /// Whether log and notes turn: later items take the places of earlier ones.
    pub fn is_ring(&self) -> bool {
        self.heading == Heading::Second && self.records >= 2
    }

    /// The largest number that a record can have.
    pub fn most_records(&self) -> u32 {
        match self.is_ring() {
            true => u32::MAX,
            false => self.records as u32,
        }
    }

    /// The largest number that a note can have.
    pub fn most_notes(&self) -> u32 {
        match self.is_ring() {
            true => u32::MAX,
            false => self.notes as u32,
        }
    }

    fn slots_at(&self) -> usize {
        12 + self.pages * IMAGE_LEN
    }

    fn records_at(&self) -> usize {
        self.slots_at() + self.slots * IMAGE_LEN + 4
    }

    fn notes_at(&self) -> usize {
        self.records_at() + self.records * RECORD_LEN + 4
    }

    /// Bytes of page `number`'s own image. All items count from 1.
    pub fn page(&self, number: usize) -> Range<usize> {
        item(8, number, IMAGE_LEN)
    }

    pub fn slot(&self, number: usize) -> Range<usize> {
        item(self.slots_at(), number, IMAGE_LEN)
    }

    /// Bytes of the slot that log record `number` (at least 1) goes to.
    pub fn record_place(&self, number: u32) -> Range<usize> {
        self.record((number as usize - 1) % self.records + 1)
    }

    /// Bytes of the slot that note `number` (at least 1) goes to; N is not 0.
    pub fn note_place(&self, number: u32) -> Range<usize> {
        self.note((number as usize - 1) % self.notes + 1)
    }

    /// Bytes of a slot of the log.
    pub fn record(&self, number: usize) -> Range<usize> {
        item(self.records_at(), number, RECORD_LEN)
    }

    /// Bytes of a slot of the notes.
    pub fn note(&self, number: usize) -> Range<usize> {
        item(self.notes_at(), number, NOTE_LEN)
    }
}

/// Frames in a memory of this length; None if no F in range fits.
pub fn frame_count(memory_len: usize) -> Option<usize> {
    let frames = memory_len.checked_sub(PENDING_LEN)? / IMAGE_LEN;
    (memory_len == memory_len_for(frames) && (1..=MAX_FRAMES).contains(&frames)).then_some(frames)
}

pub fn memory_len_for(frames: usize) -> usize {
    PENDING_LEN + frames * IMAGE_LEN
}

/// Bytes in memory of pending record `number` (at least 1).
pub fn pending_place(number: u32) -> Range<usize> {
    item(0, (number as usize - 1) % MAX_PENDING + 1, RECORD_LEN)
}

/// Bytes in memory of frame `number`.
pub fn frame_place(number: usize) -> Range<usize> {
    item(PENDING_LEN, number, IMAGE_LEN)
}

fn item(section: usize, number: usize, len: usize) -> Range<usize> {
    let start = section + (number - 1) * len;
    start..start + len
}

fn count_at(volume: &[u8], at: usize) -> Option<u32> {
    volume.get(at..at + 4).map(|bytes| u32_at(bytes, 0))
}

fn count_in(count: u32, range: RangeInclusive<u32>) -> Option<usize> {
    range.contains(&count).then_some(count as usize)
}
