//! The cells of a driver script, encoded from `Op`.

use crate::planning::{Settings, Victim};
use crate::script::cell::{Call, Cell, Op, Second, CELL_LEN, NUMBER_A, NUMBER_B, PAYLOAD_AT};
use crate::store::bytes::{put_u16, put_u32};
use crate::store::record::{Change, Payload, PAYLOAD_LEN};

/// The cell that decodes to `op`.
pub fn encode(op: &Op) -> Cell {
    let mut cell = [0; CELL_LEN];
    match *op {
        Op::Call(call) => encode_call(&call, &mut cell),
        Op::Sizes { volume, memory, buffer } => {
            cell[0] = 11;
            put_u32(&mut cell, NUMBER_A, volume);
            put_u32(&mut cell, NUMBER_B, memory);
            put_u32(&mut cell, PAYLOAD_AT, buffer);
        }
        Op::Poke { at, count, bytes } => encode_poke(12, at, count, &bytes, &mut cell),
        Op::PokeMemory { at, count, bytes } => encode_poke(13, at, count, &bytes, &mut cell),
        Op::SetState { position, value } => {
            cell[0] = 14;
            put_u32(&mut cell, NUMBER_A, position);
            put_u32(&mut cell, NUMBER_B, value);
        }
        Op::Lose => cell[0] = 15,
        Op::Fill { target, byte } => {
            cell[0] = 16;
            cell[1] = byte;
            put_u32(&mut cell, NUMBER_A, target);
        }
        Op::Second(second) => encode_second(second, &mut cell),
        Op::PokeSecond { at, count, bytes } => encode_poke(28, at, count, &bytes, &mut cell),
        Op::Skip => {}
    }
    cell
}

fn encode_second(second: Second, cell: &mut Cell) {
    cell[0] = 27;
    match second {
        Second::Volume => {}
        Second::Lent => cell[1] = 1,
        Second::Length(length) => {
            cell[1] = 2;
            put_u32(cell, NUMBER_A, length);
        }
    }
}

fn encode_poke(code: u8, at: u32, count: u8, bytes: &Payload, cell: &mut Cell) {
    cell[0] = code;
    cell[8] = count;
    put_u32(cell, NUMBER_A, at);
    cell[PAYLOAD_AT..PAYLOAD_AT + PAYLOAD_LEN].copy_from_slice(bytes);
}

fn encode_call(call: &Call, cell: &mut Cell) {
    cell[0] = call.code();
    match *call {
        Call::Make { heading: _, counts } => {
            for (at, count) in counts.into_iter().enumerate() {
                put_u32(cell, PAYLOAD_AT + 4 * at, count);
            }
        }
        Call::Begin { page, frame, fill } => {
            put_u16(cell, 2, page);
            put_u16(cell, 4, frame);
            cell[9] = fill;
        }
        Call::Load { page, frame: number } | Call::Backup { page, slot: number } => {
            put_u16(cell, 2, page);
            put_u16(cell, 4, number);
        }
        Call::Change { page, change, payload } => {
            put_u16(cell, 2, page);
            encode_change(change, cell);
            cell[PAYLOAD_AT..PAYLOAD_AT + PAYLOAD_LEN].copy_from_slice(&payload);
        }
        Call::Write { page } | Call::Inspect { page } | Call::Release { page } => {
            put_u16(cell, 2, page)
        }
        Call::Rehearse(Settings { frames, interval, victim }) => {
            cell[1] = u8::from(victim == Victim::Released);
            put_u16(cell, 2, frames);
            put_u32(cell, NUMBER_A, interval);
        }
        Call::Advise { frame } => put_u16(cell, 4, frame),
        // No arguments.
        _ => {}
    }
}

fn encode_change(change: Change, cell: &mut Cell) {
    let (kind, offset, length, fill) = match change {
        Change::Format { fill } => (1, 0, 0, fill),
        Change::Put { offset, length } => (2, offset, length, 0),
        Change::Slide { offset, length } => (3, offset, length, 0),
    };
    cell[1] = kind;
    put_u16(cell, 6, offset);
    cell[8] = length;
    cell[9] = fill;
}
