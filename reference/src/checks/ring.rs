//! What a history's log and notes may have lost: only what is spare. And which pages can
//! then no longer be rebuilt.

use crate::checks::abstract_log::AbstractLog;
use crate::checks::histories::ensure;
use crate::generators::world::World;
use crate::store::answer::Answer;
use crate::store::bytes::{checksum, u16_at, u32_at};
use crate::store::note::NoteKind;
use crate::store::state::{IndexEntry, State};

/// A history's volume beside its abstract log, and what its notes give.
pub struct RingView<'a> {
    pub world: &'a World,
    pub abstract_log: &'a AbstractLog,
    pub noted: &'a State,
}

impl RingView<'_> {
    /// The lowest number that the log still holds.
    pub fn first(&self) -> u32 {
        let (last, count) =
            (u64::from(self.abstract_log.last()), self.world.geometry.records as u64);
        if !self.world.geometry.is_ring() || last == 0 {
            return 1;
        }
        let oldest = last.saturating_sub(count) + 1;
        let slot = (oldest - 1) % count + 1;
        let item = &self.world.volume()[self.world.geometry.record(slot as usize)];
        let whole = checksum(&item[..60]) == u32_at(item, 60);
        oldest as u32 + u32::from(!whole)
    }

    /// Record 1 has left the log.
    pub fn gone(&self) -> bool {
        self.abstract_log.last() >= 1 && self.first() > 1
    }

    fn own_number(&self, page: u16) -> Option<u32> {
        let own = &self.world.volume()[self.world.geometry.page(page.into())];
        self.number_if_valid(own, page)
    }

    fn backup_passes(&self, page: u16, entry: &IndexEntry) -> bool {
        if entry.backup_slot == 0 {
            return false;
        }
        let image = &self.world.volume()[self.world.geometry.slot(entry.backup_slot.into())];
        self.number_if_valid(image, page) == Some(entry.backup_lsn)
    }

    fn number_if_valid(&self, image: &[u8], page: u16) -> Option<u32> {
        let valid =
            self.world.item_sealed(image) && u16_at(image, 0) == page && u16_at(image, 2) == 0;
        valid.then(|| u32_at(image, 4))
    }

    /// What a page needs once record 1 has left: no backup noted, or its image whole, or an
    /// own image as new.
    pub fn provided(&self, page: u16) -> bool {
        let entry = self.noted.entry(page);
        entry.backup_slot == 0
            || self.backup_passes(page, entry)
            || self.own_number(page).is_some_and(|number| number >= entry.backup_lsn)
    }

    /// Whether the page can't be rebuilt: it has lost a record, and neither backup nor own
    /// image nor a format in the log stands for it.
    pub fn beyond_repair(&self, page: u16) -> bool {
        let first = self.first();
        let places = self.abstract_log.places(page);
        let Some(&last_lost) = places.iter().rev().find(|&&place| place < first) else {
            return false;
        };
        let own_serves = self.own_number(page).is_some_and(|number| number >= last_lost);
        let format_left = places
            .iter()
            .any(|&place| place >= first && self.abstract_log.entry(place).change.is_format());
        !own_serves && !format_left && !self.backup_passes(page, self.noted.entry(page))
    }

    /// 23 exactly where the page is beyond repair, and then only where the proviso fails.
    pub fn check_below(&self, page: u16, answer: &Answer) -> Result<(), String> {
        let below = answer.to_string() == "REFUSED 23";
        let tell = || format!("page {page}: {answer}, log from {}", self.first());
        ensure(below == self.beyond_repair(page), tell)?;
        ensure(!below || (self.gone() && !self.provided(page)), tell)
    }

    /// Every record below the log's run, or that a pending one will displace, is spare.
    pub fn check_spare(&self) -> Result<(), String> {
        let given = u64::from(self.abstract_log.last()) + self.abstract_log.pending.len() as u64;
        let displaced = given.saturating_sub(self.world.geometry.records as u64);
        let first = u64::from(self.first()).max(displaced + 1);
        if !self.world.geometry.is_ring() {
            return Ok(());
        }
        for (number, entry) in
            self.abstract_log.numbered().filter(|(number, _)| u64::from(*number) < first)
        {
            let noted = self.noted.entry(entry.page);
            ensure(noted.backup_slot != 0 && noted.backup_lsn >= number, || {
                format!("record {number} of page {} is needed and lost", entry.page)
            })?;
        }
        let pending_in_the_way = displaced > u64::from(self.abstract_log.last());
        ensure(!pending_in_the_way, || "a pending record displaces a pending one".into())
    }

    /// A note that is no longer whole has a later one of its page and kind.
    pub fn check_notes(&self, stored: &[(u16, NoteKind)], base: u32) -> Result<(), String> {
        for (at, note) in stored.iter().enumerate() {
            let number = base + at as u32 + 1;
            let item = &self.world.volume()[self.world.geometry.note_place(number)];
            let whole = checksum(&item[..12]) == u32_at(item, 12) && u32_at(item, 0) == number;
            let renewed = stored[at + 1..].contains(note);
            ensure(whole || renewed, || format!("note {number}, {note:?}, is needed and lost"))?;
        }
        Ok(())
    }
}
