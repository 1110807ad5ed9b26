//! A history under way: its events and what they do to volume, memory and state.

use crate::generators::lift::Lift;
use crate::script::cell::{Call, Op};
use crate::script::recorder::Script;
use crate::store::answer::Answer;
use crate::store::bytes::{byte_checksum, checksum, u32_at};
use crate::store::geometry::{frame_count, Geometry, IMAGE_LEN};
use crate::store::heading::{Heading, HEADING_LEN};
use std::ops::Range;

/// A place that holds a page image on disk.
#[derive(Clone, Copy, Debug, PartialEq, Eq)]
pub enum Place {
    Page(u16),
    Slot(u16),
}

/// How a cut leaves the item that the call stores.
#[derive(Clone, Debug)]
pub enum Left {
    Old,
    New,
    /// A torn write: bytes that fail their checksum.
    Torn(Vec<u8>),
}

#[derive(Clone, Debug)]
pub enum Event {
    /// Another memory is lent; only after Make, a cut or a refused Restart.
    Lend {
        memory_len: usize,
        byte: u8,
    },
    Call(Call),
    Cut {
        within: Option<Call>,
        left: Left,
    },
    Damage {
        place: Place,
        bytes: Vec<u8>,
    },
    /// No event of a history: a cut, then the same volume at numbers near the largest.
    Lift(Lift),
}

impl Event {
    /// The call that was made or cut.
    pub fn call(&self) -> Option<&Call> {
        match self {
            Event::Call(call) | Event::Cut { within: Some(call), .. } => Some(call),
            _ => None,
        }
    }
}

/// What an event came to.
#[derive(Clone, Copy, Debug, Default)]
pub struct Outcome {
    pub answer: Option<Answer>,
    /// For a cut: whether the call's item counts as stored.
    pub left_new: bool,
}

pub struct World {
    pub script: Script,
    pub geometry: Geometry,
    /// Whether a Restart that was not refused gave the present state.
    pub live: bool,
    /// Every image that counts as stored, with its place.
    pub stored: Vec<(Place, Vec<u8>)>,
}

impl World {
    /// A made volume, in a script that continues. `byte` lies in the volume before.
    pub fn make(mut script: Script, geometry: Geometry, byte: u8) -> World {
        script.reset();
        script.emit(Op::Fill { target: 0, byte });
        script.sizes(geometry.volume_len(), 1_280, 256);
        script.call(Call::Make { heading: geometry.heading, counts: geometry.counts() });
        World { script, geometry, live: false, stored: Vec::new() }
    }

    pub fn volume(&self) -> &[u8] {
        self.script.driver.volume()
    }

    /// Frames of the memory that is lent now; 0 if its length is wrong.
    pub fn frames(&self) -> usize {
        frame_count(self.script.driver.memory_len).unwrap_or(0)
    }

    pub fn place(&self, place: Place) -> Range<usize> {
        match place {
            Place::Page(page) => self.geometry.page(page.into()),
            Place::Slot(slot) => self.geometry.slot(slot.into()),
        }
    }

    pub fn apply(&mut self, event: &Event) -> Outcome {
        match event {
            Event::Lend { memory_len, byte } => {
                self.script.resize_memory(*memory_len);
                self.script.emit(Op::Fill { target: 1, byte: *byte });
                Outcome::default()
            }
            Event::Call(call) => {
                let answer = self.complete(call);
                if *call == Call::Restart {
                    self.live = !answer.is_refused();
                }
                Outcome { answer: Some(answer), left_new: false }
            }
            Event::Cut { within, left } => {
                let left_new = within.is_some_and(|call| self.leave(&call, left));
                self.script.emit(Op::Lose);
                self.live = false;
                Outcome { answer: None, left_new }
            }
            Event::Lift(lift) => {
                self.lift(lift);
                Outcome::default()
            }
            Event::Damage { place, bytes } => {
                self.script.poke(self.place(*place), bytes);
                Outcome::default()
            }
        }
    }

    fn lift(&mut self, lift: &Lift) {
        self.script.emit(Op::Lose);
        self.live = false;
        let mut volume = self.volume().to_vec();
        lift.apply(&mut volume, &self.geometry);
        self.script.poke(0..volume.len(), &volume);
        for (_, image) in &mut self.stored {
            lift.lift_image(image, &self.geometry);
        }
    }

    /// Runs a call, keeps the image that it stores and takes over the heading that it sets.
    fn complete(&mut self, call: &Call) -> Answer {
        let restamped = self.restamped(call);
        let was_stored = restamped.is_some_and(|place| self.is_stored(place));
        let answer = self.script.call(*call);
        if answer != Answer::Done {
            return answer;
        }
        match *call {
            Call::Write { page } => self.keep(Place::Page(page)),
            Call::Backup { page: _, slot } => self.keep(Place::Slot(slot)),
            Call::Start => self.geometry.heading = Heading::Carrying,
            Call::Finish => self.geometry.heading = Heading::Second,
            _ => {}
        }
        // A restamped image counts as stored exactly if the one before it does.
        if let Some(place) = restamped.filter(|_| was_stored) {
            self.keep(place);
        }
        answer
    }

    fn keep(&mut self, place: Place) {
        let image = self.volume()[self.place(place)].to_vec();
        self.stored.push((place, image));
    }

    /// Whether a place's image was stored there.
    fn is_stored(&self, place: Place) -> bool {
        let image = &self.volume()[self.place(place)];
        self.stored.iter().any(|(at, stored)| *at == place && stored == image)
    }

    /// The place of the image that a Restamp would change now.
    fn restamped(&self, call: &Call) -> Option<Place> {
        if *call != Call::Restamp {
            return None;
        }
        let mut trial = self.script.driver.trial();
        trial.call(call);
        let changes = |place: &Place| {
            let bytes = self.place(*place);
            trial.volume[bytes.clone()] != self.volume()[bytes]
        };
        self.places().into_iter().find(changes)
    }

    /// The places of images, pages before slots.
    pub fn places(&self) -> Vec<Place> {
        let pages = (1..=self.geometry.pages as u16).map(Place::Page);
        pages.chain((1..=self.geometry.slots as u16).map(Place::Slot)).collect()
    }

    /// Leaves the item of a call that is cut; true if it counts as stored.
    fn leave(&mut self, call: &Call, left: &Left) -> bool {
        let Some(item) = self.item_of(call) else {
            return false;
        };
        match left {
            Left::Old => false,
            Left::New => {
                self.complete(call);
                true
            }
            Left::Torn(bytes) => {
                self.script.poke(item, bytes);
                false
            }
        }
    }

    /// Bytes of the item that the call would store now; None if it would store none.
    pub fn item_of(&self, call: &Call) -> Option<Range<usize>> {
        let state = &self.script.driver.state;
        if self.script.driver.trial().call(call) != Answer::Done {
            return None;
        }
        match *call {
            Call::Force => Some(self.geometry.record_place(state.durable + 1)),
            Call::Write { page } => Some(self.geometry.page(page.into())),
            Call::Backup { page: _, slot } => Some(self.geometry.slot(slot.into())),
            Call::Note => Some(self.geometry.note_place(state.notes + 1)),
            Call::Start | Call::Finish => Some(0..HEADING_LEN),
            Call::Restamp => self.restamped(call).map(|place| self.place(place)),
            _ => None,
        }
    }

    /// Whether an item's checksum is right: an image's by the heading, else the word sum. Told
    /// apart from the store's own test, which it is to contradict.
    pub fn item_sealed(&self, item: &[u8]) -> bool {
        let at = item.len() - 4;
        let (before, held) = (&item[..at], u32_at(item, at));
        let (words, bytes) = (checksum(before) == held, byte_checksum(before) == held);
        match (item.len(), self.geometry.heading) {
            (IMAGE_LEN, Heading::Second) => bytes,
            (IMAGE_LEN, Heading::Carrying) => words || bytes,
            _ => words,
        }
    }

    /// The bytes that the call would leave in its item.
    pub fn item_after(&self, call: &Call) -> Option<Vec<u8>> {
        let item = self.item_of(call)?;
        let mut trial = self.script.driver.trial();
        trial.call(call);
        Some(trial.volume[item].to_vec())
    }
}
