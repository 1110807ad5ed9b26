//! Lists of reads and changes: two kinds of reader of a thread, and random ones.

use crate::generators::rng::Rng;
use crate::planning::{Settings, Victim, MAX_EVENTS};
use crate::store::geometry::{MAX_FRAMES, MAX_PAGES};

/// A thread of 16 pages: each begun and then changed 20 times.
const THREAD_PAGES: u8 = 16;
const PAGE_CHANGES: usize = 21;
/// Changes of a page after which everything is read again.
const REREAD_AFTER: usize = 7;

pub fn read(page: u8) -> u8 {
    page
}

pub fn change(page: u8) -> u8 {
    page + 128
}

/// A reader who stays at the end: reads the newest page after each change of it; where it has
/// just begun, the one before comes first.
pub fn stays() -> Vec<u8> {
    let mut events = Vec::new();
    for page in 1..=THREAD_PAGES {
        for at in 1..=PAGE_CHANGES {
            events.push(change(page));
            events.extend((at == 1 && page > 1).then(|| read(page - 1)));
            events.push(read(page));
        }
    }
    events
}

/// A reader who rereads all pages after every seventh change of one.
pub fn rereads() -> Vec<u8> {
    let mut events = Vec::new();
    for page in 1..=THREAD_PAGES {
        for at in 1..=PAGE_CHANGES {
            events.push(change(page));
            if at % REREAD_AFTER == 0 {
                events.extend((1..=page).map(read));
            }
        }
    }
    events
}

/// A list that is in range.
pub fn choose_events(rng: &mut Rng) -> Vec<u8> {
    match rng.below(12) {
        0 => stays(),
        1 => rereads(),
        _ => random_events(rng),
    }
}

/// Reads and changes of some pages, the same page again and again with some chance.
fn random_events(rng: &mut Rng) -> Vec<u8> {
    let count = match rng.below(8) {
        0 => rng.between(0, 5),
        1 => rng.pick(&[MAX_EVENTS, MAX_EVENTS - 1, 500]),
        _ => rng.between(6, 150),
    };
    let pages = rng.pick(&[1, 2, 3, 5, 8, 17, 40, MAX_PAGES]);
    let last = rng.between(pages, MAX_PAGES);
    let (stay, changes) = (rng.pick(&[0, 300, 700]), rng.pick(&[200, 500, 800]));
    let mut page = last as u8;
    let mut one = |_| {
        if !rng.chance(stay) {
            page = (last - rng.below(pages)) as u8;
        }
        if rng.chance(changes) {
            change(page)
        } else {
            read(page)
        }
    };
    (0..count).map(&mut one).collect()
}

/// Settings that are in range.
pub fn choose_settings(rng: &mut Rng) -> Settings {
    let few = rng.between(1, 6) as u32;
    let any = rng.between(1, 255) as u32;
    Settings {
        frames: rng.pick(&[1, 1, 2, 2, 3, 4, 8, 15, MAX_FRAMES as u16]),
        interval: rng.pick(&[1, few, few, few, 16, any, 255]),
        victim: rng.pick(&[Victim::Written, Victim::Released]),
    }
}
