//! A small model of frames and backup habits: what a list of reads and changes would cost.
//! It knows how far images and backups have come, and no byte of them.

use crate::store::answer::Refusal;
use crate::store::geometry::{MAX_FRAMES, MAX_PAGES};

pub const MAX_EVENTS: usize = 1_024;
const MAX_INTERVAL: u32 = 255;

/// What becomes of a dirty page whose frame is wanted.
#[derive(Clone, Copy, Debug, PartialEq, Eq)]
pub enum Victim {
    /// Written and noted.
    Written,
    /// Released: its image stays old.
    Released,
}

#[derive(Clone, Copy, Debug, PartialEq, Eq)]
pub struct Settings {
    pub frames: u16,
    /// A page is backed up after so many changes of it.
    pub interval: u32,
    pub victim: Victim,
}

#[derive(Clone, Copy, Debug, PartialEq, Eq)]
pub enum Event {
    Read(u8),
    Change(u8),
}

impl Event {
    /// Below 128 a read of that page, else a change of the page 128 below.
    pub fn decode(byte: u8) -> Event {
        match byte {
            0..=127 => Event::Read(byte),
            _ => Event::Change(byte - 128),
        }
    }

    pub fn page(self) -> u8 {
        match self {
            Event::Read(page) | Event::Change(page) => page,
        }
    }
}

/// What a page has cost: loads, stores by sort, records replayed.
#[derive(Clone, Copy, Debug, Default, PartialEq, Eq)]
pub struct Figures {
    pub loads: u32,
    pub records: u32,
    pub images: u32,
    pub backups: u32,
    pub notes: u32,
    pub replayed: u32,
}

impl Figures {
    pub fn numbers(&self) -> [u32; 6] {
        [self.loads, self.records, self.images, self.backups, self.notes, self.replayed]
    }
}

pub type Rehearsal = [Figures; MAX_PAGES];

/// Plays the events, a byte each.
pub fn rehearse(events: &[u8], settings: &Settings) -> Result<Rehearsal, Refusal> {
    if !in_range(events, settings) {
        return Err(Refusal::Rehearsal);
    }
    let mut model = Model::new(settings);
    for (time, &byte) in (1..).zip(events) {
        model.play(time, Event::decode(byte));
    }
    Ok(model.figures)
}

fn in_range(events: &[u8], settings: &Settings) -> bool {
    let page_fits = |&byte: &u8| (1..=MAX_PAGES).contains(&Event::decode(byte).page().into());
    events.len() <= MAX_EVENTS
        && (1..=MAX_FRAMES).contains(&settings.frames.into())
        && (1..=MAX_INTERVAL).contains(&settings.interval)
        && events.iter().all(page_fits)
}

/// Counts of a page's changes: those made, and those that its images hold (0: no image).
#[derive(Clone, Copy, Default)]
struct Page {
    changes: u32,
    own: u32,
    backup: u32,
}

/// A frame's page (0: empty) and the time of its last use (0: never).
#[derive(Clone, Copy, Default)]
struct Frame {
    page: u8,
    dirty: bool,
    used: usize,
}

struct Model {
    settings: Settings,
    frames: Vec<Frame>,
    pages: [Page; MAX_PAGES],
    figures: Rehearsal,
}

impl Model {
    fn new(settings: &Settings) -> Model {
        Model {
            settings: *settings,
            frames: vec![Frame::default(); settings.frames.into()],
            pages: [Page::default(); MAX_PAGES],
            figures: [Figures::default(); MAX_PAGES],
        }
    }

    fn play(&mut self, time: usize, event: Event) {
        let page = event.page();
        let is_blank = self.pages[index(page)].changes == 0;
        if is_blank && event == Event::Read(page) {
            return;
        }
        let frame = match self.frames.iter().position(|frame| frame.page == page) {
            Some(frame) => frame,
            None => self.bring_in(page),
        };
        self.frames[frame].used = time;
        if event == Event::Change(page) {
            self.change(page, frame);
        }
    }

    /// Frees the least recently used frame and loads or begins the page there.
    fn bring_in(&mut self, page: u8) -> usize {
        let oldest = (0..self.frames.len()).min_by_key(|&frame| self.frames[frame].used);
        let frame = oldest.expect("there is a frame");
        self.push_out(frame);
        let Page { changes, own, backup } = self.pages[index(page)];
        if changes > 0 {
            // The walk stops at the newest image; without one it reads all records.
            let figures = &mut self.figures[index(page)];
            figures.loads += 1;
            figures.replayed += changes - own.max(backup);
        }
        self.frames[frame] = Frame { page, dirty: own != changes, used: 0 };
        frame
    }

    fn push_out(&mut self, frame: usize) {
        let Frame { page, dirty, .. } = self.frames[frame];
        if dirty && self.settings.victim == Victim::Written {
            self.pages[index(page)].own = self.pages[index(page)].changes;
            self.figures[index(page)].images += 1;
            self.figures[index(page)].notes += 1;
        }
    }

    /// A change, forced at once; then a backup if it is due.
    fn change(&mut self, page: u8, frame: usize) {
        let figures = &mut self.figures[index(page)];
        let state = &mut self.pages[index(page)];
        self.frames[frame].dirty = true;
        state.changes += 1;
        figures.records += 1;
        if state.changes % self.settings.interval == 0 {
            state.backup = state.changes;
            figures.backups += 1;
            figures.notes += 1;
        }
    }
}

fn index(page: u8) -> usize {
    usize::from(page) - 1
}
