//! Under the first heading: sound states, the order of refusals, and what calls leave as it was.

mod common;

use common::*;
use reference::script::cell::Call;
use reference::script::driver::Driver;
use reference::store::answer::Answer;
use reference::store::calls::{inspect, restart};
use reference::store::heading::Heading;
use reference::store::note::NoteKind;
use reference::store::record::Change;
use reference::store::state::State;

const INDEX: usize = 40;

/// A driver after a Restart of the cases' volume: page 1 failed, page 2 good, two frames.
fn driver() -> Driver {
    let mut driver = Driver::default();
    let mut volume = with_log(Heading::First);
    set_page(&mut volume, 2, 2);
    driver.volume_len = volume.len();
    driver.memory_len = 1_536;
    driver.volume[..volume.len()].copy_from_slice(&volume);
    assert_eq!(driver.call(&Call::Restart), Answer::Done);
    driver
}

fn number(answer: Answer) -> u8 {
    match answer {
        Answer::Refused(refusal) => refusal.number(),
        Answer::Nothing => 100,
        _ => 0,
    }
}

fn put(page: u16) -> Call {
    Call::Change { page, change: Change::Put { offset: 0, length: 1 }, payload: [1; 44] }
}

/// The sound state with these numbers set: is it still sound?
fn sound_with(changes: &[(usize, u32)]) -> bool {
    let mut state = driver().state;
    for &(position, value) in changes {
        assert!(state.set_number(position, value));
    }
    state.is_sound(&geometry(), 2)
}

#[test]
fn sound_states() {
    let pending_note =
        |kind, own, page, slot, lsn| [(3, kind), (4, own), (5, page), (6, slot), (7, lsn)];
    let full = [(2, 3), (3, 1), (4, 4), (5, 1), (6, 0), (7, 3)];
    for changes in [
        &[][..],
        &[(1, 1)],
        &[(2, 4)],
        &full,
        &pending_note(1, 1, 2, 0, 3),
        &pending_note(2, 1, 2, 1, 0),
        &[(8, 1), (9, 1), (10, 2)],
        &[(1, 1), (8, 1), (INDEX, 4)],
        &[(INDEX + 2, 3), (INDEX + 3, 1), (INDEX + 4, 3)],
        &[(INDEX + 4, 3)],
        &[(INDEX, 0), (INDEX + 1, 0)],
    ] {
        assert!(sound_with(changes), "{changes:?}");
    }
}

#[test]
fn unsound_states() {
    let pending_note =
        |kind, own, page, slot, lsn| [(3, kind), (4, own), (5, page), (6, slot), (7, lsn)];
    let full = [(2, 4), (3, 1), (4, 5), (5, 1), (6, 0), (7, 3)];
    for changes in [
        &[(1, 2)][..],
        &[(0, u32::MAX), (1, 5)],
        &[(0, 0), (INDEX, 0), (INDEX + 1, 0)],
        &[(2, 5)],
        &full,
        &pending_note(1, 2, 1, 0, 3),
        &pending_note(1, 1, 0, 0, 3),
        &pending_note(1, 1, 3, 0, 3),
        &pending_note(1, 1, 1, 1, 3),
        &pending_note(2, 1, 1, 0, 3),
        &pending_note(2, 1, 1, 2, 3),
        &pending_note(1, 1, 1, 0, 4),
        &[(8, 3)],
        &[(8, 1), (10, 1)],
        &[(9, 1)],
        &[(12, 1)],
        &[(13, 1)],
        &[(8, 1), (INDEX, 0), (INDEX + 1, 0)],
        &[(1, 1), (INDEX, 4)],
        &[(8, 1), (INDEX, 4)],
        &[(8, 1), (INDEX, 2)],
        &[(0, 2), (1, 1)],
        &[(INDEX + 2, 4)],
        &[(INDEX + 4, 4)],
        &[(INDEX + 3, 2)],
        &[(INDEX + 10, 1), (INDEX + 11, 1)],
        &[(359, 1)],
    ] {
        assert!(!sound_with(changes), "{changes:?}");
    }
}

#[test]
fn at_most_sixteen_pending() {
    let state = |pending| State { pending, ..State::zero() };
    let geometry =
        reference::store::geometry::Geometry::new(Heading::First, [1, 0, 64, 0]).unwrap();
    assert!(state(16).is_sound(&geometry, 1));
    assert!(!state(17).is_sound(&geometry, 1));
}

#[test]
fn order_of_refusals() {
    let mut driver = driver();
    let begin = |page, frame| Call::Begin { page, frame, fill: 0 };
    let load = |page, frame| Call::Load { page, frame };
    for (call, expected) in [
        (begin(3, 3), 3),
        (begin(1, 3), 4),
        (begin(1, 1), 9),
        (load(0, 0), 3),
        (load(1, 0), 4),
        (put(1), 8),
        (Call::Write { page: 1 }, 8),
        (Call::Backup { page: 1, slot: 257 }, 5),
        (Call::Backup { page: 1, slot: 1 }, 8),
        (Call::Force, 100),
        (Call::Note, 100),
        (load(1, 1), 0),
        (load(1, 1), 9),
        (load(2, 2), 0),
        (Call::Write { page: 2 }, 100),
        (put(1), 0),
        (put(1), 12),
        (Call::Write { page: 1 }, 15),
        (Call::Force, 0),
        (Call::Write { page: 1 }, 0),
        (Call::Write { page: 1 }, 100),
        (Call::Backup { page: 1, slot: 1 }, 13),
        (Call::Note, 0),
        (Call::Backup { page: 1, slot: 1 }, 0),
        (Call::Note, 0),
        (Call::Backup { page: 2, slot: 1 }, 16),
    ] {
        assert_eq!(number(driver.call(&call)), expected, "{call:?}");
    }
}

#[test]
fn a_refusal_changes_nothing() {
    let mut driver = driver();
    driver.call(&Call::Load { page: 1, frame: 1 });
    driver.call(&put(1));
    driver.state.notes = 4;
    let before = driver.clone();
    for call in [
        put(2),
        Call::Write { page: 1 },
        Call::Load { page: 2, frame: 1 },
        Call::Release { page: 1 },
    ] {
        assert!(driver.call(&call).is_refused());
        assert_eq!(driver.line(&Answer::Done), before.line(&Answer::Done));
    }
}

#[test]
fn inspect_looks_at_the_log_before_a_blank_page() {
    let mut volume = made(Heading::First);
    let mut buffer = [0; 256];
    assert_eq!(number(inspect(&volume, 1, &mut buffer)), 7);
    assert_eq!(number(inspect(&volume, 0, &mut buffer)), 3);
    assert_eq!(number(inspect(&volume, 0, &mut buffer[..255])), 2);
    set_note(&mut volume, NoteKind::Written, 1);
    assert_eq!(number(inspect(&volume, 1, &mut buffer)), 18);
    set_record(&mut volume, 1, &record(2));
    assert_eq!(number(inspect(&volume, 1, &mut buffer)), 17);
    assert_eq!(number(inspect(&volume, 3, &mut buffer)), 3);
}

#[test]
fn load_refuses_a_broken_chain() {
    let edits: [(usize, u8); 7] = [(0, 1), (4, 3), (4, 0), (8, 2), (10, 4), (15, 1), (59, 1)];
    for (at, byte) in edits {
        let mut driver = driver();
        let place = geometry().record(3);
        driver.volume[place.start + at] = byte;
        reference::store::bytes::seal(&mut driver.volume[place]);
        let before = driver.memory.clone();
        assert_eq!(number(driver.call(&Call::Load { page: 1, frame: 1 })), 19, "{at}");
        assert_eq!(driver.memory, before);
    }
}

#[test]
fn restart_takes_a_full_log_and_full_notes() {
    let mut volume = with_log(Heading::First);
    set_record(&mut volume, 4, &{
        let change = Change::Format { fill: 5 };
        reference::store::record::Record {
            number: 4,
            previous: 3,
            page: 1,
            change,
            payload: [0; 44],
        }
        .encode()
    });
    let mut memory = vec![1; 5_120];
    let (state, answer) = restart(&volume, &mut memory);
    assert_eq!((answer, state.durable), (Answer::Done, 4));
    assert_eq!(memory, vec![0; 5_120]);
    assert_eq!(number(restart(&volume, &mut [1; 5_376]).1), 2);
}
