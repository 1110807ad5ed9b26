//! The cells of a driver script: 64 bytes each, decoded to `Op`.

use crate::planning::{Settings, Victim};
pub use crate::script::encode::encode;
use crate::store::bytes::{u16_at, u32_at};
use crate::store::heading::Heading;
use crate::store::record::{Change, Payload, PAYLOAD_LEN};

pub const CELL_LEN: usize = 64;
/// A script's further cells are ignored.
pub const MAX_CELLS: usize = 4096;
pub(crate) const PAYLOAD_AT: usize = 16;
pub(crate) const NUMBER_A: usize = 12;
pub(crate) const NUMBER_B: usize = 60;

pub type Cell = [u8; CELL_LEN];

/// A call with its arguments.
#[derive(Clone, Copy, Debug, PartialEq, Eq)]
pub enum Call {
    Make {
        heading: Heading,
        counts: [u32; 4],
    },
    Restart,
    Begin {
        page: u16,
        frame: u16,
        fill: u8,
    },
    Load {
        page: u16,
        frame: u16,
    },
    Change {
        page: u16,
        change: Change,
        payload: Payload,
    },
    Force,
    Write {
        page: u16,
    },
    Backup {
        page: u16,
        slot: u16,
    },
    Note,
    Inspect {
        page: u16,
    },
    Release {
        page: u16,
    },
    Start,
    Restamp,
    Finish,
    Forecast,
    /// The length of the volume's archive.
    Length,
    /// The archive into the lent buffer.
    Archive,
    /// The second buffer's archive into the lent buffer as area.
    Unarchive,
    /// The volume with the one in the second buffer.
    Compare,
    /// The pages of the second buffer's archive.
    Pages,
    /// The second buffer's events.
    Rehearse(Settings),
    /// What upkeep says; the frame is left to it.
    Advise {
        frame: u16,
    },
}

/// What a cell asks of the driver.
#[derive(Clone, Copy, Debug, PartialEq, Eq)]
pub enum Op {
    Call(Call),
    Sizes { volume: u32, memory: u32, buffer: u32 },
    Poke { at: u32, count: u8, bytes: Payload },
    PokeMemory { at: u32, count: u8, bytes: Payload },
    SetState { position: u32, value: u32 },
    Lose,
    Fill { target: u32, byte: u8 },
    Second(Second),
    PokeSecond { at: u32, count: u8, bytes: Payload },
    Skip,
}

/// What the second buffer gets, and with it its length in use.
#[derive(Clone, Copy, Debug, PartialEq, Eq)]
pub enum Second {
    /// The lent part of the volume buffer.
    Volume,
    /// The lent part of the lent buffer.
    Lent,
    /// Nothing but this length.
    Length(u32),
}

impl Call {
    /// The op number of the script format.
    pub fn code(&self) -> u8 {
        match self {
            Call::Make { heading: Heading::First, .. } => 21,
            Call::Make { .. } => 1,
            Call::Restart => 2,
            Call::Begin { .. } => 3,
            Call::Load { .. } => 4,
            Call::Change { .. } => 5,
            Call::Force => 6,
            Call::Write { .. } => 7,
            Call::Backup { .. } => 8,
            Call::Note => 9,
            Call::Inspect { .. } => 10,
            Call::Release { .. } => 17,
            Call::Start => 18,
            Call::Restamp => 19,
            Call::Finish => 20,
            Call::Forecast => 22,
            Call::Length => 23,
            Call::Archive => 24,
            Call::Unarchive => 25,
            Call::Compare => 26,
            Call::Pages => 29,
            Call::Rehearse(_) => 30,
            Call::Advise { .. } => 31,
        }
    }
}

/// Decodes a cell; what the format does not know is `Skip`.
pub fn decode(cell: &Cell) -> Op {
    let page = u16_at(cell, 2);
    let frame_or_slot = u16_at(cell, 4);
    let number_a = u32_at(cell, NUMBER_A);
    let number_b = u32_at(cell, NUMBER_B);
    let mut bytes = [0; PAYLOAD_LEN];
    bytes.copy_from_slice(&cell[PAYLOAD_AT..PAYLOAD_AT + PAYLOAD_LEN]);
    let call = match cell[0] {
        1 => Call::Make { heading: Heading::Second, counts: counts(cell) },
        21 => Call::Make { heading: Heading::First, counts: counts(cell) },
        2 => Call::Restart,
        3 => Call::Begin { page, frame: frame_or_slot, fill: cell[9] },
        4 => Call::Load { page, frame: frame_or_slot },
        5 => match decode_change(cell) {
            Some(change) => Call::Change { page, change, payload: bytes },
            None => return Op::Skip,
        },
        6 => Call::Force,
        7 => Call::Write { page },
        8 => Call::Backup { page, slot: frame_or_slot },
        9 => Call::Note,
        10 => Call::Inspect { page },
        17 => Call::Release { page },
        18 => Call::Start,
        19 => Call::Restamp,
        20 => Call::Finish,
        22 => Call::Forecast,
        23 => Call::Length,
        24 => Call::Archive,
        25 => Call::Unarchive,
        26 => Call::Compare,
        29 => Call::Pages,
        30 => match decode_victim(cell[1]) {
            Some(victim) => Call::Rehearse(Settings { frames: page, interval: number_a, victim }),
            None => return Op::Skip,
        },
        31 => Call::Advise { frame: frame_or_slot },
        11 => {
            return Op::Sizes {
                volume: number_a,
                memory: number_b,
                buffer: u32_at(cell, PAYLOAD_AT),
            }
        }
        12 => return Op::Poke { at: number_a, count: cell[8], bytes },
        13 => return Op::PokeMemory { at: number_a, count: cell[8], bytes },
        14 => return Op::SetState { position: number_a, value: number_b },
        15 => return Op::Lose,
        16 => return Op::Fill { target: number_a, byte: cell[1] },
        27 => return decode_second(cell[1], number_a),
        28 => return Op::PokeSecond { at: number_a, count: cell[8], bytes },
        _ => return Op::Skip,
    };
    Op::Call(call)
}

fn decode_victim(kind: u8) -> Option<Victim> {
    match kind {
        0 => Some(Victim::Written),
        1 => Some(Victim::Released),
        _ => None,
    }
}

fn decode_second(kind: u8, length: u32) -> Op {
    match kind {
        0 => Op::Second(Second::Volume),
        1 => Op::Second(Second::Lent),
        2 => Op::Second(Second::Length(length)),
        _ => Op::Skip,
    }
}

/// P, B, L and N of a Make.
fn counts(cell: &Cell) -> [u32; 4] {
    [0, 4, 8, 12].map(|at| u32_at(cell, PAYLOAD_AT + at))
}

fn decode_change(cell: &Cell) -> Option<Change> {
    let (offset, length) = (u16_at(cell, 6), cell[8]);
    match cell[1] {
        1 => Some(Change::Format { fill: cell[9] }),
        2 => Some(Change::Put { offset, length }),
        3 => Some(Change::Slide { offset, length }),
        _ => None,
    }
}
