//! A rehearsal against the real calls, made on a fresh volume. The calls are chosen from the
//! real state and the events alone.

use crate::checks::histories::ensure;
use crate::generators::rehearse_lists::{choose_events, choose_settings};
use crate::generators::rng::Rng;
use crate::planning::{rehearse, Event, Figures, Rehearsal, Settings, Victim};
use crate::store::answer::Answer;
use crate::store::calls::{make, restart};
use crate::store::geometry::{memory_len_for, Geometry, MAX_FRAMES, MAX_PAGES};
use crate::store::heading::Heading;
use crate::store::record::{Change, PAYLOAD_LEN};
use crate::store::state::State;

/// Whether the real calls of some list were all taken; their figures are then the model's.
pub fn check_rehearsal(rng: &mut Rng) -> Result<bool, String> {
    let (events, settings) = (choose_events(rng), choose_settings(rng));
    let model = rehearse(&events, &settings).map_err(|refusal| format!("{refusal:?}"))?;
    let geometry = choose_room(&model, rng);
    let tell = |text: &str| format!("{text}\n{settings:?}\n{geometry:?}\n{events:?}");
    let Some(real) = play_real(&events, &settings, &geometry) else {
        ensure(!has_room(&model, &geometry), || tell("refused with room for everything"))?;
        return Ok(false);
    };
    ensure(real == model, || {
        let differs = |page: &usize| real[page - 1] != model[page - 1];
        let page = (1..=MAX_PAGES).find(differs).unwrap_or(1);
        tell(&format!("page {page}: {:?}, calls {:?}", model[page - 1], real[page - 1]))
    })?;
    Ok(true)
}

fn total(model: &Rehearsal, figure: fn(&Figures) -> u32) -> usize {
    model.iter().map(figure).sum::<u32>() as usize
}

/// Records, notes, and pages that are backed up.
fn wanted(model: &Rehearsal) -> (usize, usize, usize) {
    let backed_up = model.iter().filter(|row| row.backups > 0).count();
    (total(model, |row| row.records), total(model, |row| row.notes), backed_up)
}

fn has_room(model: &Rehearsal, geometry: &Geometry) -> bool {
    let (records, notes, backed_up) = wanted(model);
    let last_page = (1..=MAX_PAGES).rev().find(|page| model[page - 1].records > 0).unwrap_or(0);
    geometry.pages >= last_page
        && geometry.slots > backed_up
        && geometry.records >= records
        && geometry.notes >= notes
}

/// Just room for everything, or a small ring that may do.
fn choose_room(model: &Rehearsal, rng: &mut Rng) -> Geometry {
    let (records, notes, backed_up) = wanted(model);
    let last_page = (1..=MAX_PAGES).rev().find(|page| model[page - 1].records > 0).unwrap_or(1);
    let (heading, records, notes) = match rng.chance(500) {
        true => (rng.pick(&Heading::MADE), records.max(1), notes),
        false => (Heading::Second, rng.between(2, records.max(2)), rng.between(0, notes)),
    };
    let counts = [last_page, backed_up + 1, records, notes.min(1024)].map(|count| count as u32);
    Geometry::new(heading, counts).expect("the counts are in range")
}

/// The figures of the real calls; None as soon as one is refused.
fn play_real(events: &[u8], settings: &Settings, geometry: &Geometry) -> Option<Rehearsal> {
    let mut volume = vec![0; geometry.volume_len()];
    make(&mut volume, geometry.heading, geometry.counts());
    let mut memory = vec![0; memory_len_for(settings.frames.into())];
    let (state, _) = restart(&volume, &mut memory);
    let figures = [Figures::default(); MAX_PAGES];
    let mut site = Site { settings, volume, memory, state, figures, used: [0; MAX_FRAMES] };
    for (time, &byte) in (1..).zip(events) {
        site.play(time, Event::decode(byte))?;
    }
    Some(site.figures)
}

/// A store and when its frames were last used.
struct Site<'a> {
    settings: &'a Settings,
    volume: Vec<u8>,
    memory: Vec<u8>,
    state: State,
    figures: Rehearsal,
    used: [usize; MAX_FRAMES],
}

impl Site<'_> {
    fn play(&mut self, time: usize, event: Event) -> Option<()> {
        let page = u16::from(event.page());
        // A list may name pages that the volume hasn't; only changed ones count as room.
        let known = self.state.index[usize::from(page) - 1].newest != 0;
        if !known && matches!(event, Event::Read(_)) {
            return Some(());
        }
        let frame = match self.state.frame_of(page) {
            Some(frame) => frame,
            None => self.bring_in(page)?,
        };
        self.used[frame - 1] = time;
        match event {
            Event::Change(_) => self.change(page, known),
            Event::Read(_) => Some(()),
        }
    }

    fn row(&mut self, page: u16) -> &mut Figures {
        &mut self.figures[usize::from(page) - 1]
    }

    /// Takes the call's state over; its answer unless it is refused.
    fn take(&mut self, (state, answer): (State, Answer)) -> Option<Answer> {
        self.state = state;
        (!answer.is_refused()).then_some(answer)
    }

    fn bring_in(&mut self, page: u16) -> Option<usize> {
        let frames = usize::from(self.settings.frames);
        let empty = (1..=frames).find(|&frame| self.state.frame(frame).page == 0);
        let oldest = (1..=frames).min_by_key(|frame| self.used[frame - 1])?;
        let frame = empty.unwrap_or(oldest);
        self.push_out(frame)?;
        let (state, number) = (self.state, frame as u16);
        if self.state.entry(page).newest == 0 {
            let begun = state.begin(&self.volume, &mut self.memory, page, number, 7);
            self.take(begun)?;
            return Some(frame);
        }
        let loaded = state.load(&self.volume, &mut self.memory, page, number);
        if let Answer::Rebuilt(rebuild) = self.take(loaded)? {
            self.row(page).loads += 1;
            self.row(page).replayed += rebuild.replayed as u32;
        }
        Some(frame)
    }

    fn push_out(&mut self, frame: usize) -> Option<()> {
        let held = *self.state.frame(frame);
        if !held.dirty {
            return Some(());
        }
        let state = self.state;
        match self.settings.victim {
            Victim::Released => {
                let released = state.release(&self.volume, &self.memory, held.page);
                self.take(released)?;
            }
            Victim::Written => {
                let written = state.write(&mut self.volume, &self.memory, held.page);
                self.take(written)?;
                self.row(held.page).images += 1;
                self.note(held.page)?;
            }
        }
        Some(())
    }

    fn note(&mut self, page: u16) -> Option<()> {
        let state = self.state;
        let noted = state.note(&mut self.volume, &self.memory);
        self.take(noted)?;
        self.row(page).notes += 1;
        Some(())
    }

    /// A put, unless the page has just begun; a force; a backup if it is due.
    fn change(&mut self, page: u16, known: bool) -> Option<()> {
        if known {
            let put = Change::Put { offset: 3, length: 12 };
            let payload = [page as u8; PAYLOAD_LEN];
            let state = self.state;
            let changed = state.change(&self.volume, &mut self.memory, page, put, payload);
            self.take(changed)?;
        }
        let state = self.state;
        let forced = state.force(&mut self.volume, &self.memory);
        self.take(forced)?;
        self.row(page).records += 1;
        if self.row(page).records % self.settings.interval == 0 {
            let slot = (1..=129).find(|&slot| !self.state.slot_in_index(slot))?;
            let state = self.state;
            let backed = state.backup(&mut self.volume, &self.memory, page, slot.into());
            self.take(backed)?;
            self.row(page).backups += 1;
            self.note(page)?;
        }
        Some(())
    }
}
