//! The restart rule: what a volume's log and notes give.

use crate::checks::fault::{require, Fault};
use crate::store::geometry::Geometry;
use crate::store::note::{Note, NoteKind};
use crate::store::record::Record;
use crate::store::section::Section;
use crate::store::state::{IndexEntry, State};
use std::ops::RangeInclusive;

/// The state that a volume's records and notes give.
pub fn recover(volume: &[u8], geometry: &Geometry) -> Result<State, Fault> {
    let log = Log::read(volume, geometry)?;
    index_of(volume, geometry, &log)
}

/// The same with the log read already.
pub fn index_of(volume: &[u8], geometry: &Geometry, log: &Log) -> Result<State, Fault> {
    let mut state = State::zero();
    state.durable = *log.run.end();
    for (page, newest) in (1u16..).zip(log.newest_numbers()) {
        let entry = state.entry_mut(page);
        (entry.newest, entry.newest_durable) = (newest, newest);
    }
    replay_notes(volume, geometry, log, &mut state)?;
    for entry in &mut state.index {
        settle_without_record(entry)?;
    }
    Ok(state)
}

/// The records of the run that a restart finds.
pub struct Log {
    pub run: RangeInclusive<u32>,
    pub records: Vec<Record>,
    pages: usize,
}

impl Log {
    pub fn read(volume: &[u8], geometry: &Geometry) -> Result<Log, Fault> {
        let section = Section::log(volume, geometry);
        let run = section.run()?;
        let mut log = Log { run: run.clone(), records: Vec::new(), pages: geometry.pages };
        let mut newest = vec![0; geometry.pages];
        for number in run {
            let record = Record::decode(section.item(number)).ok_or(Fault::RecordLayout)?;
            require(page_in_range(record.page, geometry), Fault::RecordPage)?;
            let last = &mut newest[usize::from(record.page) - 1];
            log.check_link(&record, *last)?;
            *last = number;
            log.records.push(record);
        }
        Ok(log)
    }

    /// A record names its page's last in the run. The first names 0 and is a format, or names
    /// one below the run, which isn't looked up.
    fn check_link(&self, record: &Record, last: u32) -> Result<(), Fault> {
        if last != 0 {
            let below = (1..*self.run.start()).contains(&record.previous);
            require(!below, Fault::PreviousBelow)?;
            require(record.previous == last, Fault::RecordPrevious)
        } else if record.previous == 0 {
            require(record.change.is_format(), Fault::FirstNotFormat)
        } else {
            require(record.previous < *self.run.start(), Fault::RecordPrevious)
        }
    }

    /// Each page's newest number in the run; 0 if it has none there.
    fn newest_numbers(&self) -> Vec<u32> {
        let mut newest = vec![0; self.pages];
        for record in &self.records {
            newest[usize::from(record.page) - 1] = record.number;
        }
        newest
    }

    /// Whether record 1 has left the log.
    pub fn has_lost_first(&self) -> bool {
        *self.run.end() >= 1 && *self.run.start() > 1
    }

    /// Record `number`, if it is in the run.
    pub fn record(&self, number: u32) -> Option<&Record> {
        self.records.get(number.checked_sub(*self.run.start())? as usize)
    }
}

/// Note count, last written numbers and backups.
fn replay_notes(
    volume: &[u8],
    geometry: &Geometry,
    log: &Log,
    state: &mut State,
) -> Result<(), Fault> {
    let section = Section::notes(volume, geometry);
    let run = section.run()?;
    state.notes = *run.end();
    for number in run {
        let note = Note::decode(section.item(number)).ok_or(Fault::NoteKind)?;
        check_note(&note, geometry, log, state)?;
        state.entry_mut(note.page).take_note(&note);
    }
    Ok(())
}

/// Whether a note may follow those already in the index.
fn check_note(note: &Note, geometry: &Geometry, log: &Log, state: &State) -> Result<(), Fault> {
    require(page_in_range(note.page, geometry), Fault::NotePage)?;
    require(note.lsn != 0, Fault::NoteZero)?;
    require(note.lsn <= state.durable, Fault::NoteAboveLog)?;
    let named = log.record(note.lsn);
    require(named.is_none_or(|record| record.page == note.page), Fault::NoteRecord)?;
    let entry = state.entry(note.page);
    match note.kind {
        NoteKind::Written => {
            require(note.slot_fits(geometry.slots), Fault::WrittenSlot)?;
            require(note.lsn >= entry.written, Fault::WrittenOrder)
        }
        NoteKind::BackedUp => {
            require(note.slot_fits(geometry.slots), Fault::BackupSlot)?;
            require(note.lsn >= entry.backup_lsn, Fault::BackupOrder)?;
            require(note.slot != entry.backup_slot, Fault::SlotTaken)?;
            require(!state.slot_in_index(note.slot), Fault::SlotTakenByOther)
        }
    }
}

/// A page without a record in the run is at its backup's number. Only then can its written
/// number be judged: the backup's note may come after the written one.
fn settle_without_record(entry: &mut IndexEntry) -> Result<(), Fault> {
    if entry.newest == 0 {
        (entry.newest, entry.newest_durable) = (entry.backup_lsn, entry.backup_lsn);
    }
    require(entry.written <= entry.newest, Fault::WrittenAbove)
}

fn page_in_range(page: u16, geometry: &Geometry) -> bool {
    (1..=geometry.pages).contains(&usize::from(page))
}
