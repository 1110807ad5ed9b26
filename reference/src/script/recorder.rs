//! A script in the making: its cells, and a driver that has run them.

use crate::script::cell::{decode, encode, Call, Cell, Op, Second};
use crate::script::driver::Driver;
use crate::store::answer::Answer;
use crate::store::record::PAYLOAD_LEN;
use crate::store::state::NUMBERS;
use std::ops::Range;

/// Restoring memory and state takes at most this many cells, else a Restart replaces it.
const RESTORE_LIMIT: usize = 14;

#[derive(Default)]
pub struct Script {
    pub driver: Driver,
    pub cells: Vec<Cell>,
}

impl Script {
    pub fn len(&self) -> usize {
        self.cells.len()
    }

    pub fn is_empty(&self) -> bool {
        self.cells.is_empty()
    }

    pub fn emit_cell(&mut self, cell: Cell) -> Option<Answer> {
        self.cells.push(cell);
        self.driver.run(&decode(&cell))
    }

    pub fn emit(&mut self, op: Op) -> Option<Answer> {
        self.emit_cell(encode(&op))
    }

    pub fn call(&mut self, call: Call) -> Answer {
        self.emit(Op::Call(call)).expect("the driver skips no call")
    }

    /// Brings a driver in any condition to zero buffers and a zero state.
    pub fn reset(&mut self) {
        self.emit(Op::Lose);
        for target in [0, 2] {
            self.emit(Op::Fill { target, byte: 0 });
        }
    }

    pub fn sizes(&mut self, volume: usize, memory: usize, buffer: usize) {
        let [volume, memory, buffer] = [volume, memory, buffer].map(|len| len as u32);
        self.emit(Op::Sizes { volume, memory, buffer });
    }

    pub fn resize_memory(&mut self, memory: usize) {
        self.sizes(self.driver.volume_len, memory, self.driver.lent_len);
    }

    pub fn resize_lent(&mut self, buffer: usize) {
        self.sizes(self.driver.volume_len, self.driver.memory_len, buffer);
    }

    pub fn resize_second(&mut self, second: usize) {
        self.emit(Op::Second(Second::Length(second as u32)));
    }

    pub fn set_state(&mut self, position: usize, value: u32) {
        self.emit(Op::SetState { position: position as u32, value });
    }

    /// Pokes those parts of the volume at `place` that `bytes` would change.
    pub fn poke(&mut self, place: Range<usize>, bytes: &[u8]) {
        for (at, piece) in changed_pieces(&self.driver.volume[place.clone()], bytes) {
            self.emit(poke_op(place.start + at, &piece, Buffer::Volume));
        }
    }

    /// The same in the second buffer.
    pub fn poke_second(&mut self, place: Range<usize>, bytes: &[u8]) {
        for (at, piece) in changed_pieces(&self.driver.second[place.clone()], bytes) {
            self.emit(poke_op(place.start + at, &piece, Buffer::Second));
        }
    }

    /// The same in the memory.
    pub fn poke_memory(&mut self, place: Range<usize>, bytes: &[u8]) {
        for (at, piece) in changed_pieces(&self.driver.memory[place.clone()], bytes) {
            self.emit(poke_op(place.start + at, &piece, Buffer::Memory));
        }
    }

    /// Brings lengths and volume back, and memory and state too where that is short;
    /// otherwise a Restart gives fresh ones.
    pub fn restore(&mut self, before: &Driver) {
        let lengths = |driver: &Driver| (driver.volume_len, driver.memory_len, driver.lent_len);
        if lengths(&self.driver) != lengths(before) {
            self.sizes(before.volume_len, before.memory_len, before.lent_len);
        }
        self.poke(0..before.volume.len(), &before.volume);
        let memory_cells = changed_pieces(&self.driver.memory, &before.memory).len();
        let (wanted, current) = (before.state.numbers(), self.driver.state.numbers());
        let state_cells = (0..NUMBERS).filter(|&at| wanted[at] != current[at]).count();
        if memory_cells + state_cells > RESTORE_LIMIT {
            self.call(Call::Restart);
            return;
        }
        self.poke_memory(0..before.memory.len(), &before.memory);
        for (position, value) in wanted.into_iter().enumerate() {
            if self.driver.state.numbers()[position] != value {
                self.set_state(position, value);
            }
        }
    }
}

enum Buffer {
    Volume,
    Memory,
    Second,
}

fn poke_op(at: usize, piece: &[u8], buffer: Buffer) -> Op {
    let mut bytes = [0; PAYLOAD_LEN];
    bytes[..piece.len()].copy_from_slice(piece);
    let (at, count) = (at as u32, piece.len() as u8);
    match buffer {
        Buffer::Volume => Op::Poke { at, count, bytes },
        Buffer::Memory => Op::PokeMemory { at, count, bytes },
        Buffer::Second => Op::PokeSecond { at, count, bytes },
    }
}

/// Pieces of at most a payload's length that turn `old` into `new`, with their offsets.
fn changed_pieces(old: &[u8], new: &[u8]) -> Vec<(usize, Vec<u8>)> {
    let mut pieces = Vec::new();
    let mut at = 0;
    while let Some(skip) = (at..new.len()).position(|i| old[i] != new[i]) {
        let start = at + skip;
        let mut end = new.len().min(start + PAYLOAD_LEN);
        while old[end - 1] == new[end - 1] {
            end -= 1;
        }
        pieces.push((start, new[start..end].to_vec()));
        at = end;
    }
    pieces
}
