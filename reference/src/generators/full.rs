//! Generator of a largest volume with a full log, and the calls that read all of it.

use crate::generators::choose::{change, payload};
use crate::generators::rng::Rng;
use crate::script::cell::{Call, Cell, Op, Second};
use crate::script::recorder::Script;
use crate::store::geometry::{memory_len_for, Geometry, IMAGE_LEN, MAX_FRAMES, MAX_PAGES};
use crate::store::heading::Heading;

const COUNTS: [u32; 4] = [MAX_PAGES as u32, 128, 1024, 1024];
const ARCHIVE_LEN: usize = 4 * MAX_PAGES + 64 * 1024;

/// A script of some 2,200 cells.
pub fn full_script(rng: &mut Rng) -> Vec<Cell> {
    let mut script = Script::default();
    fill_log(&mut script, rng);
    for call in [Call::Forecast, Call::Length, Call::Archive] {
        script.call(call);
    }
    for buffer in [ARCHIVE_LEN - 64, ARCHIVE_LEN] {
        script.resize_lent(buffer);
        script.call(Call::Archive);
    }
    script.emit(Op::Second(Second::Lent));
    script.call(Call::Pages);
    for pages in [MAX_PAGES - 1, MAX_PAGES + 1, MAX_PAGES] {
        script.resize_lent(IMAGE_LEN * pages);
        script.call(Call::Unarchive);
    }
    script.emit(Op::Second(Second::Volume));
    script.call(Call::Compare);
    script.emit(Op::PokeSecond { at: 8 + 256 * 192 + 8, count: 4, bytes: [0xFF; 44] });
    script.call(Call::Compare);
    script.cells
}

/// Begins all pages and changes them until the log has no room.
fn fill_log(script: &mut Script, rng: &mut Rng) {
    let heading = rng.pick(&Heading::MADE);
    let geometry = Geometry::new(heading, COUNTS).expect("the counts are in range");
    script.reset();
    script.sizes(geometry.volume_len(), memory_len_for(MAX_FRAMES), IMAGE_LEN);
    script.call(Call::Make { heading, counts: COUNTS });
    script.call(Call::Restart);
    for page in 1..=MAX_PAGES as u16 {
        let frame = page % MAX_FRAMES as u16 + 1;
        script.call(Call::Begin { page, frame, fill: rng.byte() });
        script.call(Call::Force);
    }
    while script.driver.state.durable < COUNTS[2] {
        let page = rng.between(1, MAX_PAGES) as u16;
        if rng.chance(50) {
            script.call(Call::Load { page, frame: rng.between(1, MAX_FRAMES) as u16 });
        }
        if script.driver.state.frame_of(page).is_some() {
            script.call(Call::Change { page, change: change(rng), payload: payload(rng) });
            script.call(Call::Force);
        }
    }
    script.call(Call::Inspect { page: rng.between(1, MAX_PAGES) as u16 });
}
