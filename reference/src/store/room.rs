//! Room for one more record or note: refusals 12 and 14. What stands in the way of the next
//! item is the one that lies in its slot, unless that one is spare.

use crate::checks::fault::{require, Fault};
use crate::store::geometry::Geometry;
use crate::store::note::Note;
use crate::store::record::Record;
use crate::store::section::Section;
use crate::store::state::State;

impl State {
    /// Room for the record after the last number given.
    pub fn log_room(&self, volume: &[u8], geometry: &Geometry) -> Result<(), Fault> {
        let last = self.durable + self.pending;
        if !geometry.is_ring() {
            return require(last < geometry.most_records(), Fault::LogEnd);
        }
        require(last < geometry.most_records(), Fault::LogNumbers)?;
        let log = Section::log(volume, geometry);
        let Some(number) = log.displaced(last) else {
            return Ok(());
        };
        require(number <= self.durable, Fault::LogPending)?;
        let needed =
            log.standing(number).is_some_and(|item| !self.is_spare_record(number, item, geometry));
        require(!needed, Fault::LogNeeded)
    }

    /// Whether the noted backup of the record's page is at or above it.
    pub(crate) fn is_spare_record(&self, number: u32, record: &[u8], geometry: &Geometry) -> bool {
        let page = Record::page_of(record);
        if !(1..=geometry.pages).contains(&usize::from(page)) {
            return false;
        }
        let entry = self.entry(page);
        entry.backup_slot != 0 && entry.backup_lsn >= number
    }

    /// Room for the note after those stored.
    pub fn notes_room(&self, volume: &[u8], geometry: &Geometry) -> Result<(), Fault> {
        require(geometry.notes != 0, Fault::NoNotes)?;
        if !geometry.is_ring() {
            return require(self.notes < geometry.most_notes(), Fault::NotesEnd);
        }
        require(self.notes < geometry.most_notes(), Fault::NotesNumbers)?;
        let notes = Section::notes(volume, geometry);
        let needed = notes.displaced(self.notes).is_some_and(|number| {
            notes.standing(number).is_some_and(|item| !self.is_spare_note(number, item, &notes))
        });
        require(!needed, Fault::NotesNeeded)
    }

    /// Whether a later whole note has the same page and kind.
    fn is_spare_note(&self, number: u32, note: &[u8], notes: &Section) -> bool {
        (number + 1..=self.notes).any(|later| {
            notes.standing(later).is_some_and(|item| {
                (Note::page_of(item), Note::kind_of(item))
                    == (Note::page_of(note), Note::kind_of(note))
            })
        })
    }
}
