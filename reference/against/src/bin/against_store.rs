//! Plays random scripts by the second implementation and, call by call, by the proved store as C
//! calls it: the same answer, state and bytes, and a report that tells what was stored where.
//! `against_store [--seed N] [--calls N]`; exits 1 at the first difference.

use against::store::Lent;
use reference::store::answer::{Answer, Class, Start};
use reference::generators::arbitrary::arbitrary_script;
use reference::script::args::value;
use reference::script::cell::{decode, Call, Op};
use reference::script::driver::Driver;
use reference::store::geometry::Geometry;
use reference::generators::history::{history_script, ring_script};
use reference::generators::reading::carrying_script;
use reference::generators::rng::Rng;
use std::collections::BTreeMap;
use std::ops::Range;
use std::process::ExitCode;

const CELLS: usize = 600;
const NOTHING: u32 = 256;
const NUMBERS: usize = 360;
/// The refusals that the calls on the state can give, Make and Restart included.
const REFUSALS: [u32; 21] =
    [1, 2, 3, 4, 5, 6, 7, 8, 9, 10, 11, 12, 13, 14, 15, 16, 17, 18, 19, 20, 23];

struct Tally {
    calls: usize,
    stored: usize,
    unfit: usize,
    answers: BTreeMap<u32, usize>,
}

fn main() -> ExitCode {
    let seed = value("--seed", 1);
    let wanted: usize = value("--calls", 100_000);
    let mut rng = Rng::new(seed);
    let mut tally = Tally { calls: 0, stored: 0, unfit: 0, answers: BTreeMap::new() };
    while tally.calls < wanted {
        let generator = rng.pick(&[history_script, ring_script, arbitrary_script, carrying_script]);
        if !played(&generator(&mut rng, CELLS), &mut tally, &mut rng) {
            return ExitCode::FAILURE;
        }
    }
    println!(
        "seed {seed}: {} calls for C beside the second implementation, {} of them stored, {} unfit",
        tally.calls, tally.stored, tally.unfit
    );
    let missed: Vec<u32> =
        REFUSALS.into_iter().filter(|answer| !tally.answers.contains_key(answer)).collect();
    if !missed.is_empty() {
        println!("refusals that were not reached: {missed:?}");
        return ExitCode::FAILURE;
    }
    ExitCode::SUCCESS
}

/// Plays a script; false at the first difference.
fn played(script: &[reference::script::cell::Cell], tally: &mut Tally, rng: &mut Rng) -> bool {
    let mut driver = Driver::default();
    for cell in script {
        let op = decode(cell);
        let Op::Call(call) = op else {
            driver.run(&op);
            continue;
        };
        let before = driver.trial();
        let answer = driver.call(&call);
        let mut lent = lent(&before);
        let Some(number) = lent.call(&call, 0) else { continue };
        tally.calls += 1;
        *tally.answers.entry(number).or_default() += 1;
        if !same(&before, &driver, &call, &answer, number, &lent) {
            println!("{call:?} is answered {number}, {answer:?} by the second implementation; or they differ");
            return false;
        }
        tally.stored += usize::from(number == 0 && driver.volume() != before.volume());
        if rng.chance(20) && !unfit(&before, &call, tally, rng) {
            println!("{call:?} is taken with numbers that do not fit");
            return false;
        }
    }
    true
}

/// The buffers of a driver, as C lends them.
fn lent(driver: &Driver) -> Lent {
    Lent {
        volume: driver.volume().to_vec(),
        memory: driver.memory().to_vec(),
        state: driver.state.numbers(),
        report: vec![99; 5],
    }
}

fn same(before: &Driver, after: &Driver, call: &Call, answer: &Answer, number: u32, lent: &Lent) -> bool {
    let report = match call {
        Call::Make { .. } | Call::Restart => vec![99; 5],
        _ if answer.is_refused() => vec![99; 5],
        _ => report(before, after, call, answer),
    };
    number == numbered(answer)
        && lent.volume == after.volume()
        && lent.memory == after.memory()
        && lent.state == after.state.numbers()
        && lent.report == report
}

fn numbered(answer: &Answer) -> u32 {
    match answer {
        Answer::Refused(refusal) => refusal.number().into(),
        Answer::Nothing => NOTHING,
        _ => 0,
    }
}

fn report(before: &Driver, after: &Driver, call: &Call, answer: &Answer) -> Vec<u32> {
    let [class, start, count] = match answer {
        Answer::Rebuilt(r) => [class(r.class), origin(r.start), r.replayed as u32],
        _ => [0; 3],
    };
    let stored = match answer {
        Answer::Done => place(before, after, call),
        _ => 0..0,
    };
    vec![class, start, count, stored.start as u32, stored.len() as u32]
}

fn class(class: Class) -> u32 {
    match class {
        Class::Good => 1,
        Class::Behind => 2,
        Class::Stale => 3,
        Class::Failed => 4,
        Class::Ahead => 5,
    }
}

fn origin(start: Start) -> u32 {
    match start {
        Start::Own => 1,
        Start::Backup => 2,
        Start::Format => 3,
    }
}

/// Where a call that is done stores, by the second implementation's places.
fn place(before: &Driver, after: &Driver, call: &Call) -> Range<usize> {
    let Ok(geometry) = Geometry::read(before.volume()) else { return 0..0 };
    match *call {
        Call::Force => geometry.record_place(before.state.durable + 1),
        Call::Note => geometry.note_place(before.state.notes + 1),
        Call::Write { page } => geometry.page(page.into()),
        Call::Backup { slot, .. } => geometry.slot(slot.into()),
        Call::Start | Call::Finish => 0..4,
        Call::Restamp => restamped(&geometry, before.volume(), after.volume()),
        _ => 0..0,
    }
}

/// The image that is another one than before.
fn restamped(geometry: &Geometry, before: &[u8], after: &[u8]) -> Range<usize> {
    let [pages, slots, ..] = geometry.counts();
    let images = (1..=pages as usize).map(|page| geometry.page(page));
    let backups = (1..=slots as usize).map(|slot| geometry.slot(slot));
    images
        .chain(backups)
        .find(|place| before[place.clone()] != after[place.clone()])
        .unwrap_or(0..0)
}

/// The call with a state, a report or a page number that does not fit: refused 1, 2 or 3, in their
/// order, and all that is lent is left.
fn unfit(before: &Driver, call: &Call, tally: &mut Tally, rng: &mut Rng) -> bool {
    if matches!(call, Call::Make { .. } | Call::Restart) {
        return true;
    }
    let mut lent = lent(before);
    let fine = driver_rows(before, call);
    let (more, wanted) = match rng.below(5) {
        0 => {
            lent.state.resize(rng.pick(&[0, NUMBERS - 1, NUMBERS + 1]), 0);
            (0, 2)
        }
        1 => {
            lent.report.resize(rng.pick(&[0, 4, 6]), 99);
            (0, 2)
        }
        2 => {
            let frame = 8 + 2 * rng.below(16);
            let (at, number) = rng.pick(&[(frame, 65_536), (frame, 65_537), (frame + 1, 2)]);
            lent.state[at] = number;
            (0, 2)
        }
        3 => {
            lent.state[40 + 5 * rng.below(64) + 3] += 256;
            (0, 2)
        }
        _ if takes_page(call) => (rng.pick(&[65_536, 131_072, 4_294_901_760]), if fine == 0 { 3 } else { fine }),
        _ => return true,
    };
    tally.unfit += 1;
    let wanted = if fine == 1 { 1 } else { wanted };
    let was = lent.clone();
    lent.call(call, more) == Some(wanted) && lent == was
}

fn takes_page(call: &Call) -> bool {
    !matches!(call, Call::Force | Call::Note | Call::Start | Call::Restamp | Call::Finish)
}

/// 1 or 2 where the call is refused so whatever its page is, else 0.
fn driver_rows(before: &Driver, call: &Call) -> u32 {
    match numbered(&before.trial().call(call)) {
        number @ (1 | 2) => number,
        _ => 0,
    }
}
