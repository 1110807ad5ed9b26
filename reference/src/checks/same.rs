//! What a history may not change: the text of a page that leaves its frame.

use crate::checks::histories::ensure;
use crate::checks::ring::RingView;
use crate::generators::world::World;
use crate::script::cell::Call;
use crate::script::driver::Driver;
use crate::store::answer::{Answer, Refusal};
use crate::store::geometry::frame_place;

/// A page in a frame, with the frame's bytes.
pub type Held = (u16, Vec<u8>);

/// The pages in frames.
pub fn held_pages(world: &World) -> Vec<Held> {
    let driver = &world.script.driver;
    let frames = driver.state.frames.iter().enumerate().filter(|(_, frame)| frame.page != 0);
    frames.map(|(at, frame)| (frame.page, driver.memory[frame_place(at + 1)].to_vec())).collect()
}

/// Whether a call may make a page leave its frame.
pub fn pushes_out(call: &Call) -> bool {
    matches!(call, Call::Begin { .. } | Call::Load { .. } | Call::Release { .. })
}

/// A page that was held and left its frame reads the same when it is loaded again.
pub fn check_left(ring: &RingView, before: &[Held]) -> Result<(), String> {
    let driver = &ring.world.script.driver;
    for (page, bytes) in before {
        if driver.state.frame_of(*page).is_some() {
            continue;
        }
        for frame in 1..=ring.world.frames() as u16 {
            check_load(ring, driver.trial(), (*page, frame), bytes)?;
        }
    }
    Ok(())
}

fn check_load(
    ring: &RingView,
    mut trial: Driver,
    (page, frame): (u16, u16),
    bytes: &[u8],
) -> Result<(), String> {
    let answer = trial.call(&Call::Load { page, frame });
    match answer {
        Answer::Refused(Refusal::FrameUnsettled) => Ok(()),
        Answer::Refused(Refusal::BelowRun) => ring.check_below(page, &answer),
        Answer::Rebuilt(_) => ensure(trial.memory[frame_place(frame.into())] == *bytes, || {
            format!("page {page} left its frame and came back changed")
        }),
        _ => Err(format!("page {page} left its frame and gives {answer}")),
    }
}
