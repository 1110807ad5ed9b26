//! A second store that records the same changes by itself, or nearly the same.

use crate::checks::abstract_log::Entry;
use crate::generators::choose::{change, payload};
use crate::generators::history::chooser;
use crate::generators::rng::Rng;
use crate::generators::world::World;
use crate::script::cell::Call;
use crate::store::answer::Answer;
use crate::store::geometry::Geometry;
use crate::store::heading::Heading;
use crate::store::record::{Change, Record};
use crate::store::restart::Log;

/// The changes that a volume's log holds; none if it breaks its rule.
pub fn changes_of(volume: &[u8]) -> Vec<Entry> {
    let entry = |record: &Record| {
        let Record { page, change, payload, .. } = *record;
        Entry { page, change, payload }
    };
    let log = Geometry::read(volume).and_then(|geometry| Log::read(volume, &geometry));
    log.map_or(Vec::new(), |log| log.records.iter().map(entry).collect())
}

/// The next call towards the changes that a live store lacks; None if it has them all, or if
/// the call would be refused.
pub fn next_call(world: &World, changes: &[Entry], rng: &mut Rng) -> Option<Call> {
    let state = &world.script.driver.state;
    if state.pending > 0 {
        return Some(Call::Force);
    }
    let entry = changes.get(state.durable as usize)?;
    let call = towards(world, entry, rng)?;
    let answer = world.script.driver.trial().call(&call);
    (!matches!(answer, Answer::Refused(_))).then_some(call)
}

fn towards(world: &World, entry: &Entry, rng: &mut Rng) -> Option<Call> {
    let Entry { page, change, payload } = *entry;
    let state = &world.script.driver.state;
    if usize::from(page) > world.geometry.pages {
        return None;
    }
    let frame = chooser(world).free_frame(rng);
    Some(match (state.entry(page).newest, state.frame_of(page), change) {
        (0, _, Change::Format { fill }) => Call::Begin { page, frame, fill },
        (0, ..) => Call::Begin { page, frame, fill: 0 },
        (_, Some(_), _) => Call::Change { page, change, payload },
        (_, None, _) => Call::Load { page, frame },
    })
}

/// The changes as another box may have them: cut short, gone on with, one of them different.
pub fn diverged(mut changes: Vec<Entry>, rng: &mut Rng) -> Vec<Entry> {
    if changes.is_empty() {
        return changes;
    }
    match rng.below(6) {
        0 => {}
        1 => changes.truncate(rng.between(0, changes.len())),
        2 => add_some(&mut changes, rng),
        _ => {
            let at = rng.below(changes.len());
            alter(&mut changes, at, rng);
            match rng.below(4) {
                0 => changes.truncate(rng.between(at, changes.len())),
                1 => add_some(&mut changes, rng),
                _ => {}
            }
        }
    }
    changes
}

fn add_some(changes: &mut Vec<Entry>, rng: &mut Rng) {
    for _ in 0..rng.between(1, 4) {
        let page = changes[rng.below(changes.len())].page;
        changes.push(Entry { page, change: change(rng), payload: payload(rng) });
    }
}

/// Another page, kind, range, fill or byte in one of the changes.
fn alter(changes: &mut [Entry], at: usize, rng: &mut Rng) {
    let other_page = changes[rng.below(changes.len())].page;
    let entry = &mut changes[at];
    match rng.below(3) {
        0 => entry.page = other_page,
        1 => entry.payload[0] ^= 1 << rng.below(8),
        _ => entry.change = altered(entry.change, rng),
    }
}

pub fn altered(old: Change, rng: &mut Rng) -> Change {
    match (old, rng.below(3)) {
        (_, 0) => change(rng),
        (Change::Format { fill }, _) => Change::Format { fill: fill ^ (1 << rng.below(8)) },
        (Change::Put { offset, length }, 1) => Change::Slide { offset, length },
        (Change::Slide { offset, length }, 1) => Change::Put { offset, length },
        (Change::Put { offset, length }, _) if offset > 0 => {
            Change::Put { offset: offset - 1, length }
        }
        (Change::Slide { offset, length }, _) if length > 1 => {
            Change::Slide { offset, length: length - 1 }
        }
        (other, _) => other,
    }
}

/// The counts of a box beside one of these: often other pages, mostly room for the log.
pub fn other_geometry(geometry: &Geometry, records: usize, rng: &mut Rng) -> Geometry {
    let pages = match rng.below(3) {
        0 => geometry.pages,
        1 => (geometry.pages + rng.between(1, 3)).min(64),
        _ => rng.between(1, geometry.pages),
    };
    let room = match rng.chance(850) {
        true => records + rng.between(1, 12),
        false => rng.between(1, records + 1),
    };
    let counts = [pages, rng.between(0, pages + 2), room.clamp(1, 1024), rng.between(0, 20)];
    let heading = rng.pick(&Heading::MADE);
    Geometry::new(heading, counts.map(|count| count as u32)).expect("the counts are in range")
}
