//! Old volumes carried over while they are in use.

mod common;

use common::*;
use reference::generators::carry_episodes::image_of_both_sums;
use reference::script::cell::{decode, Call, Cell, Op};
use reference::script::driver::Driver;
use reference::store::geometry::Geometry;
use reference::store::heading::{sealed_by_bytes, sealed_by_words, Heading};
use reference::store::note::{Note, NoteKind};
use reference::store::record::Change;

/// P 2, B 3, L 4, N 4, with the cases' log under the first heading, two frames.
struct Store {
    driver: Driver,
    geometry: Geometry,
}

fn store() -> Store {
    let geometry = Geometry::new(Heading::First, [2, 3, 4, 4]).unwrap();
    let mut driver = Driver::default();
    driver.volume_len = geometry.volume_len();
    driver.memory_len = 1_536;
    geometry.format(&mut driver.volume[..geometry.volume_len()]);
    for number in 1..=3 {
        driver.volume[geometry.record(number)].copy_from_slice(&record(number as u32));
    }
    let mut store = Store { driver, geometry };
    assert_eq!(store.call(Call::Restart), "OK");
    store
}

impl Store {
    fn call(&mut self, call: Call) -> String {
        self.driver.call(&call).to_string()
    }

    fn page(&mut self, page: u16, image: [u8; 256]) {
        self.driver.volume[self.geometry.page(page.into())].copy_from_slice(&image);
    }

    fn slot(&mut self, slot: usize, image: [u8; 256]) {
        self.driver.volume[self.geometry.slot(slot)].copy_from_slice(&image);
    }

    /// Page 1's backup at number 3 is in this slot.
    fn note_slot(&mut self, slot: u8) {
        let note = Note { number: 1, page: 1, kind: NoteKind::BackedUp, slot, lsn: 3 };
        self.driver.volume[self.geometry.note(1)].copy_from_slice(&note.encode());
        assert_eq!(self.call(Call::Restart), "OK");
    }

    /// Bytes of the volume that a call changes.
    fn changed_by(&mut self, call: Call) -> Vec<usize> {
        let (before, state) = (self.driver.volume.clone(), self.driver.state);
        let memory = self.driver.memory.clone();
        assert_eq!(self.call(call), "OK");
        assert_eq!((self.driver.state, &self.driver.memory), (state, &memory));
        (0..before.len()).filter(|&at| before[at] != self.driver.volume[at]).collect()
    }

    fn inspect(&mut self, page: u16) -> String {
        self.call(Call::Inspect { page })
    }
}

fn old(page: u16, lsn: u32) -> [u8; 256] {
    image(Heading::First, page, lsn)
}

fn new(page: u16, lsn: u32) -> [u8; 256] {
    image(Heading::Second, page, lsn)
}

fn torn(mut image: [u8; 256]) -> [u8; 256] {
    image[100] ^= 1;
    image
}

#[test]
fn each_call_has_its_own_heading() {
    for (call, own) in [
        (Call::Start, Heading::First),
        (Call::Restamp, Heading::Carrying),
        (Call::Finish, Heading::Carrying),
    ] {
        for heading in Heading::ALL {
            let mut store = store();
            store.driver.volume[..4].copy_from_slice(&heading.bytes());
            let answer = store.call(call);
            assert_eq!(answer == "REFUSED 1", heading != own, "{call:?} {heading:?}");
            store.driver.volume[..4].copy_from_slice(&own.bytes());
            store.driver.volume[4] = 3;
            assert_eq!(store.call(call), "REFUSED 1");
        }
    }
}

#[test]
fn headings_and_nothing_else() {
    let mut store = store();
    assert_eq!(store.changed_by(Call::Start), [3]);
    assert_eq!(store.driver.volume[..4], [0x43, 0x48, 0x50, 0x43]);
    assert_eq!(store.call(Call::Restamp), "NOTHING");
    assert_eq!(store.changed_by(Call::Finish), [3]);
    assert_eq!(store.driver.volume[..4], [0x43, 0x48, 0x50, 0x32]);
}

/// 1 before 2 before 20.
#[test]
fn order_of_refusals() {
    let mut store = store();
    store.driver.memory_len = 1_537;
    assert_eq!(store.call(Call::Finish), "REFUSED 1");
    assert_eq!(store.call(Call::Start), "REFUSED 2");
    store.driver.memory_len = 1_536;
    store.page(1, old(1, 3));
    assert_eq!(store.call(Call::Start), "OK");
    store.driver.state.pending = 2;
    assert_eq!(store.call(Call::Finish), "REFUSED 2");
    assert_eq!(store.call(Call::Restamp), "REFUSED 2");
    store.driver.state.pending = 0;
    assert_eq!(store.call(Call::Finish), "REFUSED 20");
}

/// Pages before slots; failing images, new ones and those of another page are passed over.
#[test]
fn what_is_restamped() {
    let mut store = store();
    store.note_slot(2);
    store.page(1, torn(old(1, 3)));
    store.page(2, old(2, 2));
    store.slot(1, old(2, 1));
    store.slot(2, old(2, 2));
    store.slot(3, old(1, 3));
    store.call(Call::Start);
    for expected in [
        Some(store.geometry.page(2)),
        Some(store.geometry.slot(1)),
        Some(store.geometry.slot(3)),
        None,
    ] {
        let Some(place) = expected else {
            assert_eq!(store.call(Call::Restamp), "NOTHING");
            continue;
        };
        assert_eq!(store.call(Call::Finish), "REFUSED 20");
        let mut sealed = store.driver.volume[place.clone()].to_vec();
        Heading::Second.seal_image(&mut sealed);
        let changed = store.changed_by(Call::Restamp);
        assert!(
            !changed.is_empty() && changed.iter().all(|at| (place.end - 4..place.end).contains(at))
        );
        assert_eq!(store.driver.volume[place], sealed);
    }
    assert_eq!(store.call(Call::Finish), "OK");
}

/// The slot in the index takes its own page's image only; once it is free it takes any.
#[test]
fn a_freed_slot_has_an_image_again() {
    let mut store = store();
    store.note_slot(2);
    store.slot(2, old(2, 2));
    store.call(Call::Start);
    assert_eq!(store.call(Call::Restamp), "NOTHING");
    let note = Note { number: 2, page: 1, kind: NoteKind::BackedUp, slot: 1, lsn: 3 };
    let place = store.geometry.note(2);
    store.driver.volume[place].copy_from_slice(&note.encode());
    assert_eq!(store.call(Call::Restart), "OK");
    assert_eq!(store.call(Call::Finish), "REFUSED 20");
    assert_eq!(store.call(Call::Restamp), "OK");
    assert_eq!(store.call(Call::Finish), "OK");
}

/// A slot that the state's index gives to two pages takes either's.
#[test]
fn a_slot_of_two_pages() {
    for page in [1, 2, 3] {
        let mut store = store();
        store.call(Call::Start);
        store.driver.state.index[0].backup_slot = 3;
        store.driver.state.index[1].backup_slot = 3;
        store.slot(3, old(page, 1));
        assert_eq!(store.call(Call::Restamp), if page == 3 { "NOTHING" } else { "OK" });
    }
}

/// An image that passes by both sums is left alone, or Restamp would never end.
#[test]
fn an_image_of_both_sums() {
    let image = image_of_both_sums(1, 3);
    assert!(sealed_by_words(&image) && sealed_by_bytes(&image));
    let mut store = store();
    store.page(1, image);
    assert_eq!(store.inspect(1), "GOOD OWN 0");
    store.call(Call::Start);
    assert_eq!(store.inspect(1), "GOOD OWN 0");
    assert_eq!(store.call(Call::Restamp), "NOTHING");
    assert_eq!(store.call(Call::Finish), "OK");
    assert_eq!(store.inspect(1), "GOOD OWN 0");
}

/// While it is carried over, images of either sum serve and new ones get the byte sum.
#[test]
fn either_sum_and_the_byte_sum_for_new_images() {
    for own in [old(1, 3), new(1, 3)] {
        let mut store = store();
        store.call(Call::Start);
        store.page(1, own);
        assert_eq!(store.inspect(1), "GOOD OWN 0");
        assert_eq!(store.driver.lent[..256], new(1, 3));
        assert_eq!(store.call(Call::Load { page: 1, frame: 1 }), "GOOD OWN 0");
        let change = Change::Put { offset: 3, length: 2 };
        assert_eq!(store.call(Call::Change { page: 1, change, payload: [0x33; 44] }), "OK");
        assert_eq!(store.call(Call::Force), "OK");
        assert_eq!(store.call(Call::Write { page: 1 }), "OK");
        assert_eq!(store.call(Call::Note), "OK");
        assert_eq!(store.call(Call::Backup { page: 1, slot: 2 }), "OK");
        for place in [store.geometry.page(1), store.geometry.slot(2)] {
            let stored = &store.driver.volume[place];
            assert!(sealed_by_bytes(stored) && !sealed_by_words(stored));
        }
    }
}

/// It turns as soon as it has the second heading, and not before.
#[test]
fn a_ring_from_the_finish_on() {
    let mut store = store();
    store.call(Call::Load { page: 1, frame: 1 });
    let change = Change::Put { offset: 0, length: 1 };
    let put = Call::Change { page: 1, change, payload: [1; 44] };
    for call in [put, Call::Force, Call::Backup { page: 1, slot: 1 }, Call::Note, Call::Start] {
        assert_eq!(store.call(call), "OK");
    }
    assert_eq!(store.call(put), "REFUSED 12");
    assert_eq!(store.call(Call::Finish), "REFUSED 20");
    assert_eq!(store.call(Call::Restamp), "OK");
    assert_eq!(store.call(put), "REFUSED 12");
    assert_eq!(store.call(Call::Finish), "OK");
    assert_eq!(store.call(put), "OK");
    assert_eq!(store.call(Call::Force), "OK");
    assert_eq!(store.inspect(1), "FAILED BACKUP 1");
}

/// After the finish an old image that comes back is a failing one, and the page is mended.
#[test]
fn an_old_image_that_comes_back() {
    let mut store = store();
    store.page(1, old(1, 3));
    for (call, answer) in [(Call::Start, "OK"), (Call::Restamp, "OK"), (Call::Finish, "OK")] {
        assert_eq!(store.call(call), answer);
        assert_eq!(store.inspect(1), "GOOD OWN 0");
    }
    store.page(1, old(1, 3));
    assert_eq!(store.inspect(1), "FAILED FORMAT 2");
}

/// Why a history starts only where no image that counts passes by bytes alone.
#[test]
fn a_torn_write_that_passes_by_bytes() {
    let mut store = store();
    let mut forged = new(1, 3);
    forged[60] ^= 1;
    Heading::Second.seal_image(&mut forged);
    store.page(1, forged);
    assert_eq!(store.inspect(1), "FAILED FORMAT 2");
    store.call(Call::Start);
    assert_eq!(store.inspect(1), "GOOD OWN 0");
}

#[test]
fn ops_of_the_driver() {
    for (op, call) in [(18, Call::Start), (19, Call::Restamp), (20, Call::Finish)] {
        let mut cell: Cell = [0; 64];
        cell[0] = op;
        assert_eq!(decode(&cell), Op::Call(call));
    }
}
