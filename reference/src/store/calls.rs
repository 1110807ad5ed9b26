//! Document 01's calls, and Release. Each checks its refusals in the table's order, then acts.

use crate::store::answer::{Answer, Class, Refusal};
use crate::store::geometry::{
    frame_count, frame_place, pending_place, Geometry, IMAGE_LEN, MAX_PENDING,
};
use crate::store::heading::Heading;
use crate::store::image::{as_stored, blank_image, image_lsn, Image};
use crate::store::note::{Note, NoteKind};
use crate::store::record::{Change, Payload, Record, PAYLOAD_LEN};
use crate::store::restart::recover;
use crate::store::state::{Frame, State};
use crate::store::walk::rebuild;

pub type Next = Result<(State, Answer), Refusal>;

/// Writes heading, counts (P, B, L, N) and zeros.
pub fn make(volume: &mut [u8], heading: Heading, counts: [u32; 4]) -> Answer {
    match Geometry::new(heading, counts) {
        Some(geometry) if geometry.volume_len() == volume.len() => {
            geometry.format(volume);
            Answer::Done
        }
        _ => Answer::Refused(Refusal::Volume),
    }
}

/// Reads the volume, zeroes the memory, gives the state (of zeros if refused).
pub fn restart(volume: &[u8], memory: &mut [u8]) -> (State, Answer) {
    match recovered(volume, memory.len()) {
        Ok(state) => {
            memory.fill(0);
            (state, Answer::Done)
        }
        Err(refusal) => (State::zero(), Answer::Refused(refusal)),
    }
}

fn recovered(volume: &[u8], memory_len: usize) -> Result<State, Refusal> {
    let geometry = Geometry::read(volume)?;
    frame_count(memory_len).ok_or(Refusal::Lent)?;
    Ok(recover(volume, &geometry)?)
}

/// A restart, then `page` rebuilt from durable records into the buffer, checksum set.
pub fn inspect(volume: &[u8], page: u16, buffer: &mut [u8]) -> Answer {
    match rebuilt(volume, page, buffer.len()) {
        Ok((answer, image)) => {
            buffer.copy_from_slice(&image);
            answer
        }
        Err(refusal) => Answer::Refused(refusal),
    }
}

fn rebuilt(volume: &[u8], page: u16, buffer_len: usize) -> Result<(Answer, Image), Refusal> {
    let geometry = Geometry::read(volume)?;
    ensure(buffer_len == IMAGE_LEN, Refusal::Lent)?;
    ensure_page(page, &geometry)?;
    let state = recover(volume, &geometry)?;
    let entry = state.entry(page);
    ensure(entry.newest_durable != 0, Refusal::Blank)?;
    // A recovered log has no broken chain, but it may have lost the page's start.
    let (rebuild, image) = rebuild(volume, &geometry, page, entry, state.durable)?;
    Ok((Answer::Rebuilt(rebuild), as_stored(geometry.heading, &image)))
}

impl State {
    /// First format of a blank page, into a frame that can be emptied.
    pub fn begin(
        self,
        volume: &[u8],
        memory: &mut [u8],
        page: u16,
        frame: u16,
        fill: u8,
    ) -> (State, Answer) {
        self.settle(self.try_begin(volume, memory, page, frame, fill))
    }

    fn try_begin(self, volume: &[u8], memory: &mut [u8], page: u16, frame: u16, fill: u8) -> Next {
        let (geometry, frames) = self.admit(volume, memory)?;
        ensure_page(page, &geometry)?;
        let frame = ensure_frame(frame, frames)?;
        ensure(self.entry(page).newest == 0, Refusal::NotBlankOrInFrame)?;
        self.ensure_settled(frame)?;
        self.ensure_room(volume, &geometry)?;
        memory[frame_place(frame)].copy_from_slice(&blank_image(page));
        let change = Change::Format { fill };
        Ok((self.append(memory, page, frame, change, [0; PAYLOAD_LEN]), Answer::Done))
    }

    /// Brings a page in, repaired.
    pub fn load(self, volume: &[u8], memory: &mut [u8], page: u16, frame: u16) -> (State, Answer) {
        self.settle(self.try_load(volume, memory, page, frame))
    }

    fn try_load(mut self, volume: &[u8], memory: &mut [u8], page: u16, frame: u16) -> Next {
        let (geometry, frames) = self.admit(volume, memory)?;
        ensure_page(page, &geometry)?;
        let frame = ensure_frame(frame, frames)?;
        let entry = self.entry(page);
        ensure(entry.newest != 0, Refusal::Blank)?;
        ensure(self.frame_of(page).is_none(), Refusal::NotBlankOrInFrame)?;
        self.ensure_settled(frame)?;
        let (rebuild, image) = rebuild(volume, &geometry, page, entry, self.durable)?;
        memory[frame_place(frame)].copy_from_slice(&image);
        self.frames[frame - 1] = Frame { page, dirty: rebuild.class != Class::Good };
        Ok((self, Answer::Rebuilt(rebuild)))
    }

    /// Alters a page in a frame and adds a pending record.
    pub fn change(
        self,
        volume: &[u8],
        memory: &mut [u8],
        page: u16,
        change: Change,
        payload: Payload,
    ) -> (State, Answer) {
        self.settle(self.try_change(volume, memory, page, change, payload))
    }

    fn try_change(
        self,
        volume: &[u8],
        memory: &mut [u8],
        page: u16,
        change: Change,
        payload: Payload,
    ) -> Next {
        let (geometry, _) = self.admit(volume, memory)?;
        ensure_page(page, &geometry)?;
        ensure(change.keeps_rule(), Refusal::ChangeRule)?;
        let frame = self.frame_of(page).ok_or(Refusal::NotInFrame)?;
        self.ensure_room(volume, &geometry)?;
        Ok((self.append(memory, page, frame, change, payload), Answer::Done))
    }

    /// Stores the oldest pending record.
    pub fn force(self, volume: &mut [u8], memory: &[u8]) -> (State, Answer) {
        self.settle(self.try_force(volume, memory))
    }

    fn try_force(mut self, volume: &mut [u8], memory: &[u8]) -> Next {
        let (geometry, _) = self.admit(volume, memory)?;
        if self.pending == 0 {
            return Ok((self, Answer::Nothing));
        }
        let number = self.durable + 1;
        let record = &memory[pending_place(number)];
        volume[geometry.record_place(number)].copy_from_slice(record);
        let page = Record::page_of(record);
        if ensure_page(page, &geometry).is_ok() {
            self.entry_mut(page).newest_durable = number;
        }
        self.durable = number;
        self.pending -= 1;
        Ok((self, Answer::Done))
    }

    /// Stores a dirty page's image and owes a written note.
    pub fn write(self, volume: &mut [u8], memory: &[u8], page: u16) -> (State, Answer) {
        self.settle(self.try_write(volume, memory, page))
    }

    fn try_write(mut self, volume: &mut [u8], memory: &[u8], page: u16) -> Next {
        let (geometry, _) = self.admit(volume, memory)?;
        ensure_page(page, &geometry)?;
        let frame = self.frame_of(page).ok_or(Refusal::NotInFrame)?;
        if !self.frame(frame).dirty {
            return Ok((self, Answer::Nothing));
        }
        let image = &memory[frame_place(frame)];
        self.ensure_storable(volume, image, &geometry)?;
        volume[geometry.page(page.into())].copy_from_slice(&as_stored(geometry.heading, image));
        self.frames[frame - 1].dirty = false;
        Ok((self.owe(page, NoteKind::Written, 0, image_lsn(image)), Answer::Done))
    }

    /// Stores a frame's image in a slot outside the index and owes a backup note.
    pub fn backup(self, volume: &mut [u8], memory: &[u8], page: u16, slot: u16) -> (State, Answer) {
        self.settle(self.try_backup(volume, memory, page, slot))
    }

    fn try_backup(self, volume: &mut [u8], memory: &[u8], page: u16, slot: u16) -> Next {
        let (geometry, _) = self.admit(volume, memory)?;
        ensure_page(page, &geometry)?;
        ensure((1..=geometry.slots).contains(&usize::from(slot)), Refusal::SlotRange)?;
        let frame = self.frame_of(page).ok_or(Refusal::NotInFrame)?;
        let image = &memory[frame_place(frame)];
        self.ensure_storable(volume, image, &geometry)?;
        ensure(!self.slot_in_index(slot as u8), Refusal::SlotInIndex)?;
        volume[geometry.slot(slot.into())].copy_from_slice(&as_stored(geometry.heading, image));
        Ok((self.owe(page, NoteKind::BackedUp, slot as u8, image_lsn(image)), Answer::Done))
    }

    /// Stores the pending_note note; only then does the index change.
    pub fn note(self, volume: &mut [u8], memory: &[u8]) -> (State, Answer) {
        self.settle(self.try_note(volume, memory))
    }

    fn try_note(mut self, volume: &mut [u8], memory: &[u8]) -> Next {
        let (geometry, _) = self.admit(volume, memory)?;
        let Some(note) = self.pending_note.take() else {
            return Ok((self, Answer::Nothing));
        };
        self.notes += 1;
        volume[geometry.note_place(self.notes)].copy_from_slice(&note.encode());
        self.entry_mut(note.page).take_note(&note);
        Ok((self, Answer::Done))
    }

    /// Empties a page's frame without a store; its bytes stay.
    pub fn release(self, volume: &[u8], memory: &[u8], page: u16) -> (State, Answer) {
        self.settle(self.try_release(volume, memory, page))
    }

    fn try_release(mut self, volume: &[u8], memory: &[u8], page: u16) -> Next {
        let (geometry, _) = self.admit(volume, memory)?;
        ensure_page(page, &geometry)?;
        let frame = self.frame_of(page).ok_or(Refusal::NotInFrame)?;
        self.ensure_settled(frame)?;
        self.frames[frame - 1] = Frame::default();
        Ok((self, Answer::Done))
    }

    /// Refusal 10.
    fn ensure_settled(&self, frame: usize) -> Result<(), Refusal> {
        ensure(!self.is_unsettled(frame), Refusal::FrameUnsettled)
    }

    /// The state after a call: as it was if the call is refused.
    pub fn settle(self, next: Next) -> (State, Answer) {
        next.unwrap_or_else(|refusal| (self, Answer::Refused(refusal)))
    }

    /// Refusals 1 and 2; gives the geometry and F.
    pub fn admit(&self, volume: &[u8], memory: &[u8]) -> Result<(Geometry, usize), Refusal> {
        let geometry = Geometry::read(volume)?;
        let frames = frame_count(memory.len()).ok_or(Refusal::Lent)?;
        ensure(self.is_sound(&geometry, frames), Refusal::Lent)?;
        Ok((geometry, frames))
    }

    /// Refusals 11 and 12.
    fn ensure_room(&self, volume: &[u8], geometry: &Geometry) -> Result<(), Refusal> {
        ensure((self.pending as usize) < MAX_PENDING, Refusal::PendingFull)?;
        Ok(self.log_room(volume, geometry)?)
    }

    /// Refusals 13 to 15.
    fn ensure_storable(
        &self,
        volume: &[u8],
        image: &[u8],
        geometry: &Geometry,
    ) -> Result<(), Refusal> {
        ensure(self.pending_note.is_none(), Refusal::NotePending)?;
        self.notes_room(volume, geometry)?;
        ensure(image_lsn(image) <= self.durable, Refusal::NotDurable)
    }

    /// Adds a pending record and alters the page's frame by it.
    fn append(
        mut self,
        memory: &mut [u8],
        page: u16,
        frame: usize,
        change: Change,
        payload: Payload,
    ) -> State {
        let number = self.durable + self.pending + 1;
        let previous = self.entry(page).newest;
        let record = Record { number, previous, page, change, payload };
        memory[pending_place(number)].copy_from_slice(&record.encode());
        record.apply(&mut memory[frame_place(frame)]);
        self.entry_mut(page).newest = number;
        self.frames[frame - 1] = Frame { page, dirty: true };
        self.pending += 1;
        self
    }

    fn owe(mut self, page: u16, kind: NoteKind, slot: u8, lsn: u32) -> State {
        self.pending_note = Some(Note { number: self.notes + 1, page, kind, slot, lsn });
        self
    }
}

pub fn ensure(holds: bool, refusal: Refusal) -> Result<(), Refusal> {
    holds.then_some(()).ok_or(refusal)
}

fn ensure_page(page: u16, geometry: &Geometry) -> Result<(), Refusal> {
    ensure((1..=geometry.pages).contains(&usize::from(page)), Refusal::PageRange)
}

fn ensure_frame(frame: u16, frames: usize) -> Result<usize, Refusal> {
    ensure((1..=frames).contains(&usize::from(frame)), Refusal::FrameRange)?;
    Ok(usize::from(frame))
}
