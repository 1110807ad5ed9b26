//! Document 01's plain book, as an abstract log: what a history keeps of each page. Written apart from the
//! records and images of the store, so that it can contradict them.

use crate::script::cell::Call;
use crate::store::record::{Change, Payload, PAYLOAD_LEN};
use std::collections::VecDeque;

const BODY_LEN: usize = 244;

/// A change of a page.
#[derive(Clone, Copy, Debug, PartialEq, Eq)]
pub struct Entry {
    pub page: u16,
    pub change: Change,
    pub payload: Payload,
}

/// A page's number and body.
#[derive(Clone, Debug, PartialEq, Eq)]
pub struct Replay {
    pub number: u32,
    pub body: Vec<u8>,
}

#[derive(Clone, Debug, Default)]
pub struct AbstractLog {
    pub pending: VecDeque<Entry>,
    pub durable: Vec<Entry>,
    /// Added to a place in the durable list to give its number; not 0 only after a lift.
    pub base: u32,
}

impl AbstractLog {
    /// A call that gave an answer.
    pub fn call(&mut self, call: &Call, refused: bool) {
        if refused {
            return;
        }
        match *call {
            Call::Begin { page, fill, .. } => self.pending.push_back(Entry {
                page,
                change: Change::Format { fill },
                payload: [0; PAYLOAD_LEN],
            }),
            Call::Change { page, change, payload } => {
                self.pending.push_back(Entry { page, change, payload })
            }
            Call::Force => self.make_first_durable(),
            Call::Restart => self.pending.clear(),
            _ => {}
        }
    }

    /// A cut. `within` is the call it fell in, if any; `left_new` whether its item is stored.
    pub fn cut(&mut self, within: Option<&Call>, left_new: bool) {
        if within == Some(&Call::Force) && left_new {
            self.make_first_durable();
        }
        self.pending.clear();
    }

    fn make_first_durable(&mut self) {
        self.durable.extend(self.pending.pop_front());
    }

    /// The page's replay of its durable changes; None if it is blank.
    pub fn replay(&self, page: u16) -> Option<Replay> {
        replay(self.durable.iter(), page, self.base)
    }

    /// The same with the pending changes, as a frame should hold it.
    pub fn replay_with_pending(&self, page: u16) -> Option<Replay> {
        replay(self.durable.iter().chain(&self.pending), page, self.base)
    }

    /// The durable changes with their numbers.
    pub fn numbered(&self) -> impl Iterator<Item = (u32, &Entry)> {
        (1u32..).zip(&self.durable).map(|(place, entry)| (self.base + place, entry))
    }

    /// The last durable change's number.
    pub fn last(&self) -> u32 {
        self.base + self.durable.len() as u32
    }

    /// The durable change with this number.
    pub fn entry(&self, number: u32) -> &Entry {
        &self.durable[(number - self.base) as usize - 1]
    }

    /// Numbers of the page's durable changes.
    pub fn places(&self, page: u16) -> Vec<u32> {
        let of_page = self.numbered().filter(|(_, entry)| entry.page == page);
        of_page.map(|(number, _)| number).collect()
    }
}

fn replay<'a>(entries: impl Iterator<Item = &'a Entry>, page: u16, base: u32) -> Option<Replay> {
    let mut result = None;
    for (place, entry) in (1u32..).zip(entries) {
        if entry.page == page {
            let body = result.map_or(vec![0; BODY_LEN], |replay: Replay| replay.body);
            result = Some(Replay { number: base + place, body: changed(body, entry) });
        }
    }
    result
}

fn changed(mut body: Vec<u8>, entry: &Entry) -> Vec<u8> {
    match entry.change {
        Change::Format { fill } => vec![fill; BODY_LEN],
        Change::Put { offset, length } => {
            let (start, count) = (usize::from(offset), usize::from(length));
            body.splice(start..start + count, entry.payload[..count].iter().copied());
            body
        }
        Change::Slide { offset, length } => {
            let (start, count) = (usize::from(offset), usize::from(length));
            body.splice(start..start, entry.payload[..count].iter().copied());
            body.truncate(BODY_LEN);
            body
        }
    }
}
