//! The state that goes in and comes back by value, and its 360 numbers.

use crate::store::geometry::{MAX_FRAMES, MAX_PAGES};
use crate::store::note::{Note, NoteKind};

/// How many numbers a state has.
pub const NUMBERS: usize = 360;
/// Positions among the numbers at which the frame table and the index begin.
pub const FRAMES_AT: usize = 8;
pub const INDEX_AT: usize = FRAMES_AT + 2 * MAX_FRAMES;

/// An entry of the frame table. Page 0: the frame is empty.
#[derive(Clone, Copy, Debug, Default, PartialEq, Eq)]
pub struct Frame {
    pub page: u16,
    pub dirty: bool,
}

/// A page's entry in the page recovery index.
#[derive(Clone, Copy, Debug, Default, PartialEq, Eq)]
pub struct IndexEntry {
    pub newest: u32,
    pub newest_durable: u32,
    pub written: u32,
    pub backup_slot: u8,
    pub backup_lsn: u32,
}

impl IndexEntry {
    /// What a stored note changes.
    pub fn take_note(&mut self, note: &Note) {
        match note.kind {
            NoteKind::Written => self.written = note.lsn,
            NoteKind::BackedUp => {
                self.backup_slot = note.slot;
                self.backup_lsn = note.lsn;
            }
        }
    }
}

#[derive(Clone, Copy, Debug, PartialEq, Eq)]
pub struct State {
    pub durable: u32,
    pub pending: u32,
    pub notes: u32,
    pub pending_note: Option<Note>,
    pub frames: [Frame; MAX_FRAMES],
    pub index: [IndexEntry; MAX_PAGES],
}

impl State {
    /// The state of zeros.
    pub fn zero() -> State {
        State {
            durable: 0,
            pending: 0,
            notes: 0,
            pending_note: None,
            frames: [Frame::default(); MAX_FRAMES],
            index: [IndexEntry::default(); MAX_PAGES],
        }
    }

    /// The index entry of `page`, which is in range.
    pub fn entry(&self, page: u16) -> &IndexEntry {
        &self.index[usize::from(page) - 1]
    }

    pub fn entry_mut(&mut self, page: u16) -> &mut IndexEntry {
        &mut self.index[usize::from(page) - 1]
    }

    /// The entry of frame `frame`, which is in range.
    pub fn frame(&self, frame: usize) -> &Frame {
        &self.frames[frame - 1]
    }

    /// The first frame that holds `page` (not 0), counted from 1.
    pub fn frame_of(&self, page: u16) -> Option<usize> {
        self.frames.iter().position(|frame| frame.page == page).map(|at| at + 1)
    }

    /// Whether a frame's page has a record that is not durable. An empty frame has none.
    pub fn is_unsettled(&self, frame: usize) -> bool {
        let page = self.frame(frame).page;
        page != 0 && self.entry(page).newest_durable < self.entry(page).newest
    }

    pub fn slot_in_index(&self, slot: u8) -> bool {
        self.index.iter().any(|entry| entry.backup_slot == slot)
    }

    /// The state's numbers in the script format's order.
    pub fn numbers(&self) -> Vec<u32> {
        let mut all = vec![self.durable, self.pending, self.notes];
        all.extend(match self.pending_note {
            None => [0; 5],
            Some(note) => {
                let kind = u32::from(note.kind.number());
                [kind, note.number, note.page.into(), note.slot.into(), note.lsn]
            }
        });
        for frame in &self.frames {
            all.extend([u32::from(frame.page), u32::from(frame.dirty)]);
        }
        for entry in &self.index {
            all.extend([entry.newest, entry.newest_durable, entry.written]);
            all.extend([u32::from(entry.backup_slot), entry.backup_lsn]);
        }
        all
    }

    /// Sets one number; false, and nothing set, if position or value is out of range.
    pub fn set_number(&mut self, position: usize, value: u32) -> bool {
        self.try_set(position, value).is_some()
    }

    fn try_set(&mut self, position: usize, value: u32) -> Option<()> {
        match position {
            0 => self.durable = value,
            1 => self.pending = value,
            2 => self.notes = value,
            3 => self.set_note_kind(value)?,
            4 => self.pending_note.as_mut()?.number = value,
            5 => self.pending_note.as_mut()?.page = value.try_into().ok()?,
            6 => self.pending_note.as_mut()?.slot = value.try_into().ok()?,
            7 => self.pending_note.as_mut()?.lsn = value,
            FRAMES_AT..INDEX_AT => {
                let frame = &mut self.frames[(position - FRAMES_AT) / 2];
                match (position - FRAMES_AT) % 2 {
                    0 => frame.page = value.try_into().ok()?,
                    _ => frame.dirty = flag(value)?,
                }
            }
            INDEX_AT..NUMBERS => {
                let entry = &mut self.index[(position - INDEX_AT) / 5];
                match (position - INDEX_AT) % 5 {
                    0 => entry.newest = value,
                    1 => entry.newest_durable = value,
                    2 => entry.written = value,
                    3 => entry.backup_slot = value.try_into().ok()?,
                    _ => entry.backup_lsn = value,
                }
            }
            _ => return None,
        }
        Some(())
    }

    fn set_note_kind(&mut self, value: u32) -> Option<()> {
        if value == 0 {
            self.pending_note = None;
            return Some(());
        }
        let kind = NoteKind::from_number(value)?;
        let fresh = Note { number: 0, page: 0, kind, slot: 0, lsn: 0 };
        self.pending_note.get_or_insert(fresh).kind = kind;
        Some(())
    }
}

fn flag(value: u32) -> Option<bool> {
    match value {
        0 => Some(false),
        1 => Some(true),
        _ => None,
    }
}
