//! Letting go of a page without writing it.

mod common;

use common::*;
use reference::generators::arbitrary::arbitrary_script;
use reference::generators::rng::Rng;
use reference::script::cell::{decode, Call, Op};
use reference::script::driver::Driver;
use reference::store::answer::Answer;
use reference::store::geometry::{frame_count, Geometry};
use reference::store::heading::Heading;
use reference::store::record::Change;

/// After a Restart of the cases' volume with two frames: page 1 failed, page 2 good.
fn driver(heading: Heading) -> Driver {
    let mut driver = Driver::default();
    let mut volume = with_log(heading);
    set_page(&mut volume, 2, 2);
    driver.volume_len = volume.len();
    driver.memory_len = 1_536;
    driver.volume[..volume.len()].copy_from_slice(&volume);
    assert_eq!(driver.call(&Call::Restart), Answer::Done);
    driver
}

fn answer(driver: &mut Driver, call: Call) -> String {
    driver.call(&call).to_string()
}

fn put(page: u16) -> Call {
    Call::Change { page, change: Change::Put { offset: 0, length: 1 }, payload: [1; 44] }
}

#[test]
fn rows_of_release() {
    for heading in Heading::ALL {
        let mut driver = driver(heading);
        assert_eq!(answer(&mut driver, Call::Release { page: 0 }), "REFUSED 3");
        assert_eq!(answer(&mut driver, Call::Release { page: 3 }), "REFUSED 3");
        assert_eq!(answer(&mut driver, Call::Release { page: 1 }), "REFUSED 8");
        answer(&mut driver, Call::Load { page: 1, frame: 2 });
        answer(&mut driver, put(1));
        assert_eq!(answer(&mut driver, Call::Release { page: 1 }), "REFUSED 10");
        assert_eq!(answer(&mut driver, Call::Load { page: 2, frame: 2 }), "REFUSED 10");
        answer(&mut driver, Call::Force);
        let before = driver.clone();
        assert_eq!(answer(&mut driver, Call::Release { page: 1 }), "OK");
        assert_eq!((&driver.volume, &driver.memory), (&before.volume, &before.memory));
        let mut expected = before.state;
        expected.frames[1] = Default::default();
        assert_eq!(driver.state, expected);
        assert_eq!(answer(&mut driver, Call::Release { page: 1 }), "REFUSED 8");
    }
}

/// A dirty page whose changes are durable makes way for a Load, and reads the same later.
#[test]
fn a_dirty_page_makes_way() {
    let mut driver = driver(Heading::First);
    assert_eq!(answer(&mut driver, Call::Load { page: 1, frame: 1 }), "FAILED FORMAT 2");
    assert!(driver.state.frames[0].dirty);
    let text = driver.memory[1_024..1_280].to_vec();
    assert_eq!(answer(&mut driver, Call::Load { page: 2, frame: 1 }), "GOOD OWN 0");
    assert_eq!(answer(&mut driver, Call::Release { page: 2 }), "OK");
    assert_eq!(answer(&mut driver, Call::Load { page: 1, frame: 1 }), "FAILED FORMAT 2");
    assert_eq!(driver.memory[1_024..1_280], text);
}

/// Page 1 has a pending record; an empty frame is free all the same.
#[test]
fn an_empty_frame_is_no_page() {
    let mut driver = driver(Heading::First);
    answer(&mut driver, Call::Load { page: 1, frame: 1 });
    answer(&mut driver, put(1));
    assert_eq!(answer(&mut driver, Call::Load { page: 2, frame: 2 }), "GOOD OWN 0");
}

/// In any volume, memory and state: all calls but Force and Note keep a sound state sound.
#[test]
fn sound_states_stay_sound() {
    let mut tried = 0;
    for seed in 0..20 {
        let mut driver = Driver::default();
        for cell in arbitrary_script(&mut Rng::new(seed), 1_500) {
            let op = decode(&cell);
            let was_sound = is_sound(&driver);
            let result = driver.run(&op);
            let judged = match op {
                Op::Call(Call::Force | Call::Note | Call::Make { .. } | Call::Restart) => false,
                Op::Call(_) => was_sound && result.is_some_and(|answer| !answer.is_refused()),
                _ => false,
            };
            assert!(!judged || is_sound(&driver), "seed {seed}: {op:?}");
            tried += u32::from(judged);
        }
    }
    assert!(tried > 1_000);
}

fn is_sound(driver: &Driver) -> bool {
    let (Ok(geometry), Some(frames)) =
        (Geometry::read(driver.volume()), frame_count(driver.memory_len))
    else {
        return false;
    };
    driver.state.is_sound(&geometry, frames)
}
