//! The log and the notes as rings.

mod common;

use common::*;
use reference::script::cell::Call;
use reference::script::driver::Driver;
use reference::store::answer::Answer;
use reference::store::calls::{inspect, make, restart};
use reference::store::geometry::Geometry;
use reference::store::heading::Heading;
use reference::store::record::{Change, Record};
use reference::store::scan::scan;
use reference::store::section::Section;

/// What a slot holds: a number, torn bytes or zeros.
enum Slot {
    Holds(u32),
    Torn,
    Zero,
}
use Slot::{Holds, Torn, Zero};

fn ring(counts: [u32; 4]) -> Geometry {
    Geometry::new(Heading::Second, counts).unwrap()
}

/// A record of page 1 that names the one before; record 1 is a format.
fn numbered(number: u32) -> [u8; 64] {
    let change = match number {
        1 => Change::Format { fill: 9 },
        _ => Change::Put { offset: 0, length: 1 },
    };
    Record { number, previous: number - 1, page: 1, change, payload: [1; 44] }.encode()
}

fn volume_with(slots: &[Slot]) -> (Geometry, Vec<u8>) {
    let geometry = ring([1, 1, slots.len() as u32, 2]);
    let mut volume = vec![0; geometry.volume_len()];
    geometry.format(&mut volume);
    for (at, slot) in slots.iter().enumerate() {
        let place = &mut volume[geometry.record(at + 1)];
        match slot {
            Holds(number) => place.copy_from_slice(&numbered(*number)),
            Torn => place.fill(7),
            Zero => {}
        }
    }
    (geometry, volume)
}

/// The last number, the first and whether record 1 has left; None if refused 17.
fn run_of(slots: &[Slot]) -> Option<(u32, u32)> {
    let (geometry, volume) = volume_with(slots);
    let run = Section::log(&volume, &geometry).run().ok()?;
    let answer = restart(&volume, &mut [0; 1_280]).1;
    assert_eq!(answer, Answer::Done);
    Some((*run.end(), *run.start()))
}

#[test]
fn runs_of_small_logs() {
    assert_eq!(run_of(&[Holds(5), Holds(6), Holds(3), Holds(4)]), Some((6, 3)));
    assert_eq!(run_of(&[Holds(5), Holds(6), Torn, Holds(4)]), Some((6, 4)));
    assert_eq!(run_of(&[Holds(5), Torn, Holds(3), Holds(4)]), Some((5, 3)));
    assert_eq!(run_of(&[Holds(5), Holds(2), Holds(3), Holds(4)]), Some((5, 2)));
    assert_eq!(run_of(&[Torn, Holds(2), Holds(3), Holds(4)]), Some((4, 2)));
    assert_eq!(run_of(&[Torn, Holds(2)]), Some((2, 2)));
    assert_eq!(run_of(&[Holds(1), Holds(2), Zero, Zero]), Some((2, 1)));
    assert_eq!(run_of(&[Holds(1), Holds(2), Torn, Zero]), Some((2, 1)));
    assert_eq!(run_of(&[Zero, Zero, Zero, Zero]).map(|run| run.0), Some(0));
    assert_eq!(run_of(&[Torn, Zero, Zero, Zero]).map(|run| run.0), Some(0));
}

#[test]
fn logs_that_break_the_rule() {
    for slots in [
        [Holds(5), Holds(6), Holds(3), Torn],
        [Torn, Holds(2), Zero, Zero],
        [Holds(1), Holds(2), Torn, Torn],
        [Holds(1), Holds(2), Holds(2), Zero],
        [Holds(1), Zero, Holds(3), Zero],
        [Holds(9), Holds(6), Holds(3), Holds(4)],
    ] {
        let (_, volume) = volume_with(&slots);
        assert_eq!(restart(&volume, &mut [0; 1_280]).1.to_string(), "REFUSED 17");
    }
}

/// At L 1, and under the first heading, nothing turns.
#[test]
fn no_ring() {
    for (heading, records) in [(Heading::Second, 1), (Heading::First, 2)] {
        let mut driver = driver(heading, [1, 1, records, 4], 1);
        driver.begin(1, 1);
        driver.force();
        for _ in 1..records {
            driver.put(1);
            driver.force();
        }
        driver.backup(1, 1);
        driver.note();
        assert_eq!(driver.put(1), "REFUSED 12");
    }
    let geometry = Geometry::new(Heading::Second, [1, 0, 1, 0]).unwrap();
    let mut volume = vec![0; geometry.volume_len()];
    geometry.format(&mut volume);
    let format = Record {
        number: 7,
        previous: 0,
        page: 1,
        change: Change::Format { fill: 0 },
        payload: [0; 44],
    };
    volume[geometry.record(1)].copy_from_slice(&format.encode());
    assert_eq!(restart(&volume, &mut [0; 1_280]).1.to_string(), "REFUSED 17");
}

/// A driver with a made volume, and short ways to call.
struct Store(Driver);

fn driver(heading: Heading, counts: [u32; 4], frames: usize) -> Store {
    let mut driver = Driver::default();
    let geometry = Geometry::new(heading, counts).unwrap();
    driver.volume_len = geometry.volume_len();
    driver.memory_len = 1_024 + 256 * frames;
    assert_eq!(make(&mut driver.volume[..geometry.volume_len()], heading, counts), Answer::Done);
    assert_eq!(driver.call(&Call::Restart), Answer::Done);
    Store(driver)
}

impl Store {
    fn call(&mut self, call: Call) -> String {
        self.0.call(&call).to_string()
    }
    fn begin(&mut self, page: u16, frame: u16) -> String {
        self.call(Call::Begin { page, frame, fill: 3 })
    }
    fn put(&mut self, page: u16) -> String {
        let change = Change::Put { offset: 0, length: 1 };
        self.call(Call::Change { page, change, payload: [6; 44] })
    }
    fn force(&mut self) -> String {
        self.call(Call::Force)
    }
    fn write(&mut self, page: u16) -> String {
        self.call(Call::Write { page })
    }
    fn backup(&mut self, page: u16, slot: u16) -> String {
        self.call(Call::Backup { page, slot })
    }
    fn note(&mut self) -> String {
        self.call(Call::Note)
    }
    fn restart(&mut self) -> String {
        self.call(Call::Restart)
    }
    fn inspect(&self, page: u16) -> String {
        inspect(self.0.volume(), page, &mut [0; 256]).to_string()
    }
    fn geometry(&self) -> Geometry {
        Geometry::read(self.0.volume()).unwrap()
    }
}

/// A written note may be above the backup's as the notes come: only the end counts.
#[test]
fn written_is_judged_at_the_end() {
    let mut store = driver(Heading::Second, [2, 1, 2, 2], 2);
    for answer in [
        store.begin(1, 1),
        store.force(),
        store.write(1),
        store.note(),
        store.backup(1, 1),
        store.begin(2, 2),
        store.force(),
        store.note(),
        store.put(2),
        store.force(),
    ] {
        assert_eq!(answer, "OK");
    }
    assert_eq!(store.restart(), "OK");
    let entry = *store.0.state.entry(1);
    assert_eq!((entry.newest, entry.newest_durable, entry.backup_lsn), (1, 1, 1));
    assert_eq!(store.inspect(1), "GOOD OWN 0");
}

/// 12 by a pending record; then by one that is needed; none once its backup is noted.
#[test]
fn room_in_the_log() {
    let mut store = driver(Heading::Second, [1, 2, 2, 4], 1);
    store.begin(1, 1);
    store.put(1);
    assert_eq!(store.put(1), "REFUSED 12");
    store.force();
    store.force();
    assert_eq!(store.put(1), "REFUSED 12");
    store.backup(1, 1);
    assert_eq!(store.put(1), "REFUSED 12", "a backup that is not noted counts for nothing");
    store.note();
    assert_eq!(store.put(1), "OK");
    assert_eq!(store.put(1), "OK");
    assert_eq!(store.put(1), "REFUSED 12");
    assert_eq!(store.force(), "OK");
    assert_eq!(store.inspect(1), "FAILED BACKUP 1");
}

/// After a torn overwrite the slot holds nothing that is needed.
#[test]
fn a_torn_slot_blocks_nothing() {
    let mut store = driver(Heading::Second, [1, 2, 2, 2], 1);
    store.begin(1, 1);
    store.force();
    store.backup(1, 1);
    store.note();
    store.put(1);
    store.force();
    let place = store.geometry().record_place(3);
    store.0.volume[place].fill(1);
    assert_eq!(store.restart(), "OK");
    assert_eq!(store.0.state.durable, 2);
    assert_eq!(store.call(Call::Load { page: 1, frame: 1 }), "FAILED BACKUP 1");
    assert_eq!(store.put(1), "OK");
}

/// The oldest note is the last of its page and kind: 14 comes for ever.
#[test]
fn a_store_can_lock() {
    let mut store = driver(Heading::Second, [1, 3, 8, 3], 1);
    store.begin(1, 1);
    store.force();
    store.write(1);
    store.note();
    for slot in [1, 2] {
        store.backup(1, slot);
        store.note();
    }
    assert_eq!(store.backup(1, 3), "REFUSED 14");
    store.put(1);
    assert_eq!(store.write(1), "REFUSED 14");
    let mut store = driver(Heading::Second, [1, 3, 8, 0], 1);
    store.begin(1, 1);
    store.force();
    assert_eq!(store.write(1), "REFUSED 14");
}

/// Notes turn: a spare one makes way, and the run may begin one later.
#[test]
fn notes_turn() {
    let mut store = driver(Heading::Second, [1, 3, 8, 2], 1);
    store.begin(1, 1);
    store.force();
    for slot in [1, 2, 3, 1, 2] {
        assert_eq!(store.backup(1, slot), "OK");
        assert_eq!(store.note(), "OK");
    }
    assert_eq!((store.0.state.notes, store.restart().as_str()), (5, "OK"));
    assert_eq!(store.0.state.notes, 5);
    assert_eq!(store.0.state.entry(1).backup_slot, 2);
    let place = store.geometry().note_place(6);
    store.0.volume[place].fill(1);
    assert_eq!(store.restart(), "OK");
    assert_eq!((store.0.state.notes, store.0.state.entry(1).backup_slot), (5, 2));
}

/// A page whose records have left the log is at its backup's number; once the backup fails
/// too it is lost, and only it.
#[test]
fn below_the_run() {
    let mut store = driver(Heading::Second, [2, 2, 2, 4], 2);
    store.begin(1, 1);
    store.force();
    store.backup(1, 1);
    store.note();
    store.begin(2, 2);
    store.force();
    store.put(2);
    store.force();
    assert_eq!(store.inspect(1), "FAILED BACKUP 0");
    let geometry = store.geometry();
    store.0.volume[geometry.slot(1).start + 9] ^= 1;
    assert_eq!(store.inspect(1), "REFUSED 23");
    assert_eq!(scan(store.0.volume()), "1 REFUSED 23\n2 FAILED FORMAT 2\n");
    assert_eq!(store.restart(), "OK");
    assert_eq!(store.call(Call::Load { page: 1, frame: 1 }), "REFUSED 23");
    let own = image(Heading::Second, 1, 1);
    store.0.volume[geometry.page(1)].copy_from_slice(&own);
    assert_eq!(store.inspect(1), "GOOD OWN 0", "an image below the run is still tried");
}

/// A previous number below the run isn't looked up; within the run it must be right.
#[test]
fn previous_numbers_and_the_run() {
    let put = |number, previous, page| {
        let change = Change::Put { offset: 0, length: 1 };
        Record { number, previous, page, change, payload: [1; 44] }.encode()
    };
    let geometry = ring([2, 1, 4, 2]);
    for (previous, answer) in
        [(1, "OK"), (2, "OK"), (3, "REFUSED 17"), (0, "REFUSED 17"), (4, "REFUSED 17")]
    {
        let mut volume = vec![0; geometry.volume_len()];
        geometry.format(&mut volume);
        for (number, bytes) in
            [(3, put(3, 2, 2)), (4, put(4, 3, 2)), (5, put(5, 4, 2)), (6, put(6, previous, 1))]
        {
            volume[geometry.record_place(number)].copy_from_slice(&bytes);
        }
        assert_eq!(restart(&volume, &mut [0; 1_280]).1.to_string(), answer, "{previous}");
        let place = geometry.record_place(6);
        volume[place].copy_from_slice(&put(6, previous, 2));
        assert_eq!(restart(&volume, &mut [0; 1_280]).1.to_string(), "REFUSED 17");
    }
}

/// The last numbers are given, and then no more.
#[test]
fn numbers_run_out() {
    let mut store = driver(Heading::Second, [1, 2, 2, 2], 1);
    let geometry = store.geometry();
    let last = u32::MAX - 1;
    for number in [last - 1, last] {
        let place = geometry.record_place(number);
        store.0.volume[place].copy_from_slice(&numbered(number));
    }
    let mut own = image(Heading::Second, 1, 3);
    reference::store::image::set_image_lsn(&mut own, last);
    Heading::Second.seal_image(&mut own);
    store.0.volume[geometry.page(1)].copy_from_slice(&own);
    assert_eq!(store.restart(), "OK");
    assert_eq!(store.call(Call::Load { page: 1, frame: 1 }), "GOOD OWN 0");
    store.backup(1, 1);
    store.note();
    assert_eq!(store.put(1), "OK");
    assert_eq!(store.put(1), "REFUSED 12");
    assert_eq!(store.force(), "OK");
    assert_eq!(store.0.state.durable, u32::MAX);
    assert_eq!(store.put(1), "REFUSED 12");
    assert_eq!(store.restart(), "OK");
    assert_eq!(store.inspect(1), "BEHIND OWN 1");
    store.0.state.pending = 1;
    assert_eq!(store.force(), "REFUSED 2");
}
