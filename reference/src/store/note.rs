//! Notes: what was written or backed up, and up to which record.

use crate::store::bytes::{put_u16, put_u32, seal, u16_at, u32_at};
use crate::store::geometry::NOTE_LEN;

#[derive(Clone, Copy, Debug, PartialEq, Eq)]
pub enum NoteKind {
    Written,
    BackedUp,
}

impl NoteKind {
    pub fn number(self) -> u8 {
        match self {
            NoteKind::Written => 1,
            NoteKind::BackedUp => 2,
        }
    }

    pub fn from_number(number: u32) -> Option<NoteKind> {
        match number {
            1 => Some(NoteKind::Written),
            2 => Some(NoteKind::BackedUp),
            _ => None,
        }
    }
}

#[derive(Clone, Copy, Debug, PartialEq, Eq)]
pub struct Note {
    pub number: u32,
    pub page: u16,
    pub kind: NoteKind,
    pub slot: u8,
    /// The page log number of the image stored.
    pub lsn: u32,
}

impl Note {
    /// Whether the slot is zero for a written note, 1 to `slots` for a backup's.
    pub fn slot_fits(&self, slots: usize) -> bool {
        match self.kind {
            NoteKind::Written => self.slot == 0,
            NoteKind::BackedUp => (1..=slots).contains(&usize::from(self.slot)),
        }
    }

    /// The sealed note.
    pub fn encode(&self) -> [u8; NOTE_LEN] {
        let mut bytes = [0; NOTE_LEN];
        put_u32(&mut bytes, 0, self.number);
        put_u16(&mut bytes, 4, self.page);
        bytes[6] = self.kind.number();
        bytes[7] = self.slot;
        put_u32(&mut bytes, 8, self.lsn);
        seal(&mut bytes);
        bytes
    }

    /// The page that a note's bytes name, and the kind, whatever else they hold.
    pub fn page_of(bytes: &[u8]) -> u16 {
        u16_at(bytes, 4)
    }

    pub fn kind_of(bytes: &[u8]) -> u8 {
        bytes[6]
    }

    /// None if the kind is unknown. The checksum and the slot are the caller's to look at.
    pub fn decode(bytes: &[u8]) -> Option<Note> {
        Some(Note {
            number: u32_at(bytes, 0),
            page: u16_at(bytes, 4),
            kind: NoteKind::from_number(bytes[6].into())?,
            slot: bytes[7],
            lsn: u32_at(bytes, 8),
        })
    }
}
