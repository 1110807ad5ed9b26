//! The driver of the script format: buffers, a state, and a line for each cell.

use crate::planning::{rehearse, Settings};
use crate::script::cell::{decode, Call, Cell, Op, Second, CELL_LEN, MAX_CELLS};
use crate::store::answer::Answer;
use crate::store::archive::{archive_length, archive_pages, read_archive, write_archive};
use crate::store::calls::{inspect, make, restart};
use crate::store::compare::compare;
use crate::store::forecast::{forecast, Figure};
use crate::store::record::PAYLOAD_LEN;
use crate::store::state::State;
use std::io::{self, Write};

pub const VOLUME_BUFFER: usize = 131_200;
pub const MEMORY_BUFFER: usize = 5_376;
pub const LENT_BUFFER: usize = 65_920;
pub const SECOND_BUFFER: usize = VOLUME_BUFFER;

/// The buffers with the lengths in use, and the state.
#[derive(Clone)]
pub struct Driver {
    pub volume: Vec<u8>,
    pub memory: Vec<u8>,
    pub lent: Vec<u8>,
    /// A volume, an archive or events to read; no call writes it.
    pub second: Vec<u8>,
    pub volume_len: usize,
    pub memory_len: usize,
    pub lent_len: usize,
    pub second_len: usize,
    pub state: State,
}

impl Default for Driver {
    fn default() -> Driver {
        Driver {
            volume: vec![0; VOLUME_BUFFER],
            memory: vec![0; MEMORY_BUFFER],
            lent: vec![0; LENT_BUFFER],
            second: vec![0; SECOND_BUFFER],
            volume_len: 0,
            memory_len: 1_280,
            lent_len: 256,
            second_len: 0,
            state: State::zero(),
        }
    }
}

impl Driver {
    pub fn volume(&self) -> &[u8] {
        &self.volume[..self.volume_len]
    }

    pub fn memory(&self) -> &[u8] {
        &self.memory[..self.memory_len]
    }

    pub fn lent(&self) -> &[u8] {
        &self.lent[..self.lent_len]
    }

    pub fn second(&self) -> &[u8] {
        &self.second[..self.second_len]
    }

    /// Runs a cell; None if it is skipped.
    pub fn run(&mut self, op: &Op) -> Option<Answer> {
        match *op {
            Op::Call(call) => return Some(self.call(&call)),
            Op::Sizes { volume, memory, buffer } => {
                self.volume_len = (volume as usize).min(VOLUME_BUFFER);
                self.memory_len = (memory as usize).min(MEMORY_BUFFER);
                self.lent_len = (buffer as usize).min(LENT_BUFFER);
            }
            Op::Poke { at, count, bytes } => poke(&mut self.volume, at, count, &bytes),
            Op::PokeMemory { at, count, bytes } => poke(&mut self.memory, at, count, &bytes),
            Op::SetState { position, value } => {
                if !self.state.set_number(position as usize, value) {
                    return None;
                }
            }
            Op::Lose => {
                self.memory.fill(0);
                self.state = State::zero();
            }
            Op::Fill { target, byte } => match target {
                0 => self.volume.fill(byte),
                1 => self.memory.fill(byte),
                2 => self.lent.fill(byte),
                3 => self.second.fill(byte),
                _ => return None,
            },
            Op::Second(second) => self.set_second(second),
            Op::PokeSecond { at, count, bytes } => poke(&mut self.second, at, count, &bytes),
            Op::Skip => return None,
        }
        Some(Answer::Done)
    }

    fn set_second(&mut self, second: Second) {
        let source = match second {
            Second::Volume => &self.volume[..self.volume_len],
            Second::Lent => &self.lent[..self.lent_len],
            Second::Length(length) => {
                self.second_len = (length as usize).min(SECOND_BUFFER);
                return;
            }
        };
        self.second[..source.len()].copy_from_slice(source);
        self.second_len = source.len();
    }

    /// A driver with the lent parts of the buffers only, to try a call on.
    pub fn trial(&self) -> Driver {
        Driver {
            volume: self.volume().to_vec(),
            memory: self.memory().to_vec(),
            lent: self.lent().to_vec(),
            second: self.second().to_vec(),
            ..*self
        }
    }

    /// Makes a call with the lent parts of the buffers.
    pub fn call(&mut self, call: &Call) -> Answer {
        let volume = &mut self.volume[..self.volume_len];
        let memory = &mut self.memory[..self.memory_len];
        let state = self.state;
        let (state, answer) = match *call {
            Call::Make { heading, counts } => (state, make(volume, heading, counts)),
            Call::Restart => restart(volume, memory),
            Call::Begin { page, frame, fill } => state.begin(volume, memory, page, frame, fill),
            Call::Load { page, frame } => state.load(volume, memory, page, frame),
            Call::Change { page, change, payload } => {
                state.change(volume, memory, page, change, payload)
            }
            Call::Force => state.force(volume, memory),
            Call::Write { page } => state.write(volume, memory, page),
            Call::Backup { page, slot } => state.backup(volume, memory, page, slot),
            Call::Note => state.note(volume, memory),
            Call::Release { page } => state.release(volume, memory, page),
            Call::Start => state.start(volume, memory),
            Call::Restamp => state.restamp(volume, memory),
            Call::Finish => state.finish(volume, memory),
            Call::Advise { frame } => {
                let advice = state.upkeep(volume, memory, frame);
                (state, advice.map_or_else(Answer::Refused, Answer::Advised))
            }
            _ => (state, self.read(call)),
        };
        self.state = state;
        answer
    }

    /// The calls that take no memory and no state.
    fn read(&mut self, call: &Call) -> Answer {
        let volume = &self.volume[..self.volume_len];
        let lent = &mut self.lent[..self.lent_len];
        let second = &self.second[..self.second_len];
        match *call {
            Call::Inspect { page } => inspect(volume, page, lent),
            Call::Forecast => forecast_answer(volume),
            Call::Length => archive_length(volume).map_or_else(Answer::Refused, Answer::Length),
            Call::Archive => write_archive(volume, lent),
            Call::Unarchive => read_archive(second, lent),
            Call::Compare => compare_answer(volume, second),
            Call::Pages => Answer::Pages(archive_pages(second)),
            Call::Rehearse(settings) => rehearse_answer(second, &settings),
            _ => unreachable!("all others take a memory, or are Make"),
        }
    }

    /// The line printed for a cell that was not skipped.
    pub fn line(&self, answer: &Answer) -> String {
        let bytes = |buffer: &[u8]| hash(buffer.iter().map(|&byte| byte.into()));
        format!(
            "{answer} v={} m={} u={} s={}",
            bytes(self.volume()),
            bytes(self.memory()),
            bytes(self.lent()),
            hash(self.state.numbers().into_iter().map(u64::from)),
        )
    }
}

/// Refusal (0 for none) and count of each page, hashed.
fn forecast_answer(volume: &[u8]) -> Answer {
    let numbers = |row: &Figure| match *row {
        Ok(count) => [0, count as u64],
        Err(refusal) => [refusal.number().into(), 0],
    };
    match forecast(volume) {
        Ok(rows) => Answer::Forecast(hash(rows.iter().flat_map(numbers))),
        Err(refusal) => Answer::Refused(refusal),
    }
}

fn compare_answer(first: &[u8], second: &[u8]) -> Answer {
    match compare(first, second) {
        Ok(compared) => {
            let touched = hash(compared.touched.iter().map(|&touched| touched.into()));
            Answer::Compared(compared.comparison, touched)
        }
        Err(refusal) => Answer::Refused(refusal),
    }
}

fn rehearse_answer(events: &[u8], settings: &Settings) -> Answer {
    match rehearse(events, settings) {
        Ok(rows) => {
            let numbers = rows.iter().flat_map(|row| row.numbers());
            Answer::Rehearsed(hash(numbers.map(u64::from)))
        }
        Err(refusal) => Answer::Refused(refusal),
    }
}

/// Runs a script and prints its lines.
pub fn drive(script: &[u8], out: &mut impl Write) -> io::Result<()> {
    let mut driver = Driver::default();
    for cell in cells(script) {
        match driver.run(&decode(&cell)) {
            Some(answer) => writeln!(out, "{}", driver.line(&answer))?,
            None => writeln!(out, "SKIP")?,
        }
    }
    Ok(())
}

/// The whole cells of a script, as many as count.
pub fn cells(script: &[u8]) -> impl Iterator<Item = Cell> + '_ {
    script.chunks_exact(CELL_LEN).take(MAX_CELLS).map(|bytes| {
        let mut cell = [0; CELL_LEN];
        cell.copy_from_slice(bytes);
        cell
    })
}

/// The script format's hash of a list of numbers.
pub fn hash(numbers: impl Iterator<Item = u64>) -> u64 {
    numbers.fold(7, |sum, number| (sum * 257 + number + 1) % 4_294_967_291)
}

/// Writes what falls inside the buffer.
fn poke(buffer: &mut [u8], at: u32, count: u8, bytes: &[u8; PAYLOAD_LEN]) {
    let Some(room) = buffer.get_mut(at as usize..) else {
        return;
    };
    let count = usize::from(count).min(PAYLOAD_LEN).min(room.len());
    room[..count].copy_from_slice(&bytes[..count]);
}
