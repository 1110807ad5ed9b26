//! Upkeep (docs/UPKEEP.md): which call to make next so that a ring never locks.

use crate::script::cell::Call;
use crate::store::answer::{Answer, Refusal};
use crate::store::calls::ensure;
use crate::store::geometry::{frame_place, Geometry};
use crate::store::note::{Note, NoteKind};
use crate::store::record::{Change, Record, PAYLOAD_LEN};
use crate::store::section::Section;
use crate::store::state::State;
use std::fmt;

/// What upkeep says.
#[derive(Clone, Copy, Debug, PartialEq, Eq)]
pub enum Advice {
    Idle,
    Stuck(u16),
    Make(Call),
}

/// As the script format prints it: the op number of a call, its arguments, and a put's first byte.
impl fmt::Display for Advice {
    fn fmt(&self, out: &mut fmt::Formatter) -> fmt::Result {
        let (call, page, other, byte) = match *self {
            Advice::Idle => return write!(out, "IDLE"),
            Advice::Stuck(page) => return write!(out, "STUCK {page}"),
            Advice::Make(call @ Call::Load { page, frame }) => (call, page, frame, 0),
            Advice::Make(call @ Call::Backup { page, slot }) => (call, page, slot, 0),
            Advice::Make(call @ Call::Write { page }) => (call, page, 0, 0),
            Advice::Make(call @ Call::Change { page, payload, .. }) => (call, page, 0, payload[0]),
            Advice::Make(call) => (call, 0, 0, 0),
        };
        write!(out, "ADVISE {} {page} {other} {byte}", call.code())
    }
}

/// What a renewal makes new.
#[derive(Clone, Copy, Debug, PartialEq, Eq)]
enum Kind {
    Written,
    Backup,
}

/// Every rule, as `upkeep_by_rule` names them.
pub const RULES: &[&str] = &[
    "U1",
    "U2",
    "no ring",
    "U3 position 1",
    "U3 position 2",
    "U4",
    "U5",
    "R1",
    "R1 stuck",
    "R2",
    "R2 no slot",
    "R2 stuck",
    "R3",
    "R3 stuck",
    "R4",
    "R4 stuck",
];

/// What the calls get, and the frame that is left to upkeep.
struct Desk<'a> {
    volume: &'a [u8],
    memory: &'a [u8],
    geometry: Geometry,
    reserved: u16,
}

impl State {
    /// Rules U1 to U5. Refused 1, 2 and, for a frame that the memory does not have, 4.
    pub fn upkeep(&self, volume: &[u8], memory: &[u8], reserved: u16) -> Result<Advice, Refusal> {
        self.upkeep_by_rule(volume, memory, reserved).map(|(advice, _)| advice)
    }

    /// The same, with the rules that gave it.
    pub fn upkeep_by_rule(
        &self,
        volume: &[u8],
        memory: &[u8],
        reserved: u16,
    ) -> Result<(Advice, Vec<&'static str>), Refusal> {
        let (geometry, frames) = self.admit(volume, memory)?;
        ensure((1..=frames).contains(&usize::from(reserved)), Refusal::FrameRange)?;
        let desk = Desk { volume, memory, geometry, reserved };
        Ok(if self.pending_note.is_some() {
            (Advice::Make(Call::Note), vec!["U1"])
        } else if self.pending > 0 {
            (Advice::Make(Call::Force), vec!["U2"])
        } else if !desk.geometry.is_ring() {
            (Advice::Idle, vec!["no ring"])
        } else {
            self.next_renewal(&desk)
        })
    }

    fn next_renewal(&self, desk: &Desk) -> (Advice, Vec<&'static str>) {
        for (ahead, rule) in [(1, "U3 position 1"), (2, "U3 position 2")] {
            if let Some((page, kind)) = self.note_ahead(desk, ahead) {
                let (advice, renewal) = self.renew(desk, page, kind);
                return (advice, vec![rule, renewal]);
            }
        }
        let half = desk.geometry.records as u64 / 2;
        match (1..=half).find_map(|ahead| self.record_ahead(desk, ahead)) {
            Some(page) => {
                let (advice, renewal) = self.renew(desk, page, Kind::Backup);
                (advice, vec!["U4", renewal])
            }
            None => (Advice::Idle, vec!["U5"]),
        }
    }

    /// Page and kind of the note at this position, if it is needed.
    fn note_ahead(&self, desk: &Desk, ahead: u64) -> Option<(u16, Kind)> {
        let notes = Section::notes(desk.volume, &desk.geometry);
        let number = position(self.notes, ahead, notes.count())?;
        let note = notes.standing(number)?;
        let same = |later: u32| {
            notes.standing(later).is_some_and(|item| {
                Note::page_of(item) == Note::page_of(note)
                    && Note::kind_of(item) == Note::kind_of(note)
            })
        };
        if (number..=self.notes).skip(1).any(same) {
            return None;
        }
        let written = Note::kind_of(note) == NoteKind::Written.number();
        Some((Note::page_of(note), if written { Kind::Written } else { Kind::Backup }))
    }

    /// Page of the record at this position, if it is needed.
    fn record_ahead(&self, desk: &Desk, ahead: u64) -> Option<u16> {
        let log = Section::log(desk.volume, &desk.geometry);
        let number = position(self.durable, ahead, log.count())?;
        let record = log.standing(number)?;
        let needed = !self.is_spare_record(number, record, &desk.geometry);
        needed.then(|| Record::page_of(record))
    }

    /// Rules R1 to R4, and the one that gave it.
    fn renew(&self, desk: &Desk, page: u16, kind: Kind) -> (Advice, &'static str) {
        let notes_full = self.notes_room(desk.volume, &desk.geometry).is_err();
        let (call, rule) = match (self.frame_of(page), kind) {
            (None, _) => (self.bring_in(desk, page), ["R1", "R1 stuck"]),
            (Some(_), Kind::Backup) => {
                let free = (1..=desk.geometry.slots).find(|&slot| !self.slot_in_index(slot as u8));
                let call = free.map(|slot| Call::Backup { page, slot: slot as u16 });
                match call {
                    None => (None, ["R2", "R2 no slot"]),
                    _ if notes_full => (None, ["R2", "R2 stuck"]),
                    call => (call, ["R2", "R2 stuck"]),
                }
            }
            (Some(frame), Kind::Written) if self.frame(frame).dirty => {
                ((!notes_full).then_some(Call::Write { page }), ["R3", "R3 stuck"])
            }
            (Some(frame), Kind::Written) => (self.refresh(desk, page, frame), ["R4", "R4 stuck"]),
        };
        match call {
            Some(call) => (Advice::Make(call), rule[0]),
            None => (Advice::Stuck(page), rule[1]),
        }
    }

    /// Load, unless the page is lost.
    fn bring_in(&self, desk: &Desk, page: u16) -> Option<Call> {
        let frame = desk.reserved;
        let (_, answer) = self.load(desk.volume, &mut desk.memory.to_vec(), page, frame);
        (answer != Answer::Refused(Refusal::BelowRun)).then_some(Call::Load { page, frame })
    }

    /// The body's first byte put once more.
    fn refresh(&self, desk: &Desk, page: u16, frame: usize) -> Option<Call> {
        self.log_room(desk.volume, &desk.geometry).ok()?;
        let mut payload = [0; PAYLOAD_LEN];
        // An empty frame past the memory's counts as page 0's.
        payload[0] = desk.memory.get(frame_place(frame).start + 8).copied().unwrap_or(0);
        Some(Call::Change { page, change: Change::Put { offset: 0, length: 1 }, payload })
    }
}

/// The number of the item that the `ahead`-th next one displaces, of those that a number can name.
fn position(last: u32, ahead: u64, count: usize) -> Option<u32> {
    let number = (u64::from(last) + ahead).checked_sub(count as u64)?;
    (count > 0 && number > 0).then(|| u32::try_from(number).ok())?
}
