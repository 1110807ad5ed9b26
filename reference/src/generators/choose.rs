//! Choosing calls and arguments that mostly make sense, and sometimes do not.

use crate::generators::rng::Rng;
use crate::script::cell::Call;
use crate::store::geometry::Geometry;
use crate::store::record::{Change, Payload, PAYLOAD_LEN};
use crate::store::state::State;

#[derive(Clone, Copy, Debug, PartialEq, Eq)]
pub enum Kind {
    Restart,
    Begin,
    Load,
    Change,
    Force,
    Write,
    Backup,
    Note,
    Inspect,
    Release,
    Forecast,
    Length,
    Start,
    Restamp,
    Finish,
}

/// What the choice of arguments looks at.
pub struct Chooser<'a> {
    pub state: &'a State,
    pub geometry: &'a Geometry,
    pub frames: usize,
}

impl Chooser<'_> {
    /// A call of this kind with arguments that suit the state where any do.
    pub fn sensible(&self, kind: Kind, rng: &mut Rng) -> Call {
        match kind {
            Kind::Restart => Call::Restart,
            Kind::Begin => Call::Begin {
                page: self.page(rng, |page| self.state.entry(page).newest == 0),
                frame: self.free_frame(rng),
                fill: rng.byte(),
            },
            Kind::Load => Call::Load {
                page: self.page(rng, |page| self.loadable(page)),
                frame: self.free_frame(rng),
            },
            Kind::Change => {
                let page = self.page(rng, |page| self.state.frame_of(page).is_some());
                Call::Change { page, change: change(rng), payload: payload(rng) }
            }
            Kind::Force => Call::Force,
            Kind::Write => Call::Write { page: self.page(rng, |page| self.dirty(page)) },
            Kind::Backup => Call::Backup {
                page: self.page(rng, |page| self.state.frame_of(page).is_some()),
                slot: self.slot(rng, |slot| !self.state.slot_in_index(slot as u8)),
            },
            Kind::Note => Call::Note,
            Kind::Inspect => Call::Inspect {
                page: self.page(rng, |page| self.state.entry(page).newest_durable != 0),
            },
            Kind::Release => Call::Release { page: self.page(rng, |page| self.releasable(page)) },
            Kind::Forecast => Call::Forecast,
            Kind::Length => Call::Length,
            Kind::Start => Call::Start,
            Kind::Restamp => Call::Restamp,
            Kind::Finish => Call::Finish,
        }
    }

    /// The same with one argument or more out of line.
    pub fn silly(&self, kind: Kind, rng: &mut Rng) -> Call {
        let mut call = self.sensible(kind, rng);
        let (some_page, some_frame) = (edge(rng, self.geometry.pages), edge(rng, self.frames));
        match &mut call {
            Call::Begin { page, frame, .. } | Call::Load { page, frame } => match rng.below(2) {
                0 => *page = some_page,
                _ => *frame = some_frame,
            },
            Call::Change { page, change, .. } => match rng.below(3) {
                0 => *page = some_page,
                _ => *change = silly_change(rng),
            },
            Call::Backup { page, slot } => match rng.below(3) {
                0 => *page = some_page,
                1 => *slot = edge(rng, self.geometry.slots),
                _ => *slot = self.slot(rng, |slot| self.state.slot_in_index(slot as u8)),
            },
            Call::Write { page } | Call::Inspect { page } | Call::Release { page } => {
                *page = some_page
            }
            _ => {}
        }
        call
    }

    /// A page not blank and in no frame.
    pub fn loadable(&self, page: u16) -> bool {
        self.state.entry(page).newest != 0 && self.state.frame_of(page).is_none()
    }

    fn dirty(&self, page: u16) -> bool {
        self.state.frame_of(page).is_some_and(|frame| self.state.frame(frame).dirty)
    }

    fn releasable(&self, page: u16) -> bool {
        self.state.frame_of(page).is_some_and(|frame| !self.state.is_unsettled(frame))
    }

    /// A page that is wanted; any page if there is none.
    pub fn page(&self, rng: &mut Rng, wanted: impl Fn(u16) -> bool) -> u16 {
        one_of(rng, self.geometry.pages, wanted)
    }

    /// A frame that can be taken, sometimes only one that holds no dirty page.
    pub fn free_frame(&self, rng: &mut Rng) -> u16 {
        let gentle = rng.chance(500);
        one_of(rng, self.frames.max(1), |frame| {
            let frame = usize::from(frame);
            let entry = self.state.frame(frame);
            let known = usize::from(entry.page) <= self.geometry.pages;
            known && !self.state.is_unsettled(frame) && !(gentle && entry.dirty)
        })
    }

    /// A slot that is wanted; any slot if there is none.
    fn slot(&self, rng: &mut Rng, wanted: impl Fn(u16) -> bool) -> u16 {
        one_of(rng, self.geometry.slots.max(1), wanted)
    }
}

/// A number from 1 to `top` that is wanted; any of them if there is none.
fn one_of(rng: &mut Rng, top: usize, wanted: impl Fn(u16) -> bool) -> u16 {
    let fitting: Vec<u16> = (1..=top as u16).filter(|&number| wanted(number)).collect();
    match fitting.is_empty() {
        true => rng.between(1, top) as u16,
        false => rng.pick(&fitting),
    }
}

/// A number in or around the range 1 to `top`.
pub fn edge(rng: &mut Rng, top: usize) -> u16 {
    let inside = rng.between(1, top.max(1)) as u16;
    let any = rng.next() as u16;
    let top = top as u16;
    rng.pick(&[0, 0, 1, top, top + 1, top + 1, inside, 256 + inside, 65_535, any])
}

/// A change that keeps its kind's rule, at the edges of it rather often.
pub fn change(rng: &mut Rng) -> Change {
    let any = rng.between(1, PAYLOAD_LEN) as u8;
    let length = rng.pick(&[1, 2, 44, any]);
    let last = 244 - usize::from(length);
    let offset = match rng.below(4) {
        0 => 0,
        1 => last as u16,
        _ => rng.between(0, last) as u16,
    };
    match rng.below(9) {
        0 => Change::Format { fill: rng.byte() },
        1..=4 => Change::Put { offset, length },
        _ => Change::Slide { offset, length },
    }
}

/// A put or slide with numbers at and past the edges.
pub fn silly_change(rng: &mut Rng) -> Change {
    let length = rng.pick(&[0, 1, 43, 44, 45, 255]);
    let offset = rng.pick(&[0, 199, 200, 201, 243, 244, 245, 65_535]);
    match rng.below(2) {
        0 => Change::Put { offset, length },
        _ => Change::Slide { offset, length },
    }
}

/// Payload bytes, also past the length that a change will have.
pub fn payload(rng: &mut Rng) -> Payload {
    let mut bytes = [0; PAYLOAD_LEN];
    rng.fill(&mut bytes);
    bytes
}
