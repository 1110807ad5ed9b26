//! Lists of reads and changes played on the model, and against real calls.

use reference::checks::rehearse::check_rehearsal;
use reference::generators::rehearse_lists::{change, read, rereads, stays};
use reference::generators::rng::Rng;
use reference::planning::{rehearse, Figures, Settings, Victim};
use reference::script::cell::{decode, encode, Call, Op};
use reference::script::driver::{hash, Driver};
use reference::store::answer::Refusal;

fn settings(frames: u16, interval: u32, victim: Victim) -> Settings {
    Settings { frames, interval, victim }
}

fn total(events: &[u8], settings: &Settings) -> Figures {
    let mut sum = Figures::default();
    for row in rehearse(events, settings).unwrap() {
        sum.loads += row.loads;
        sum.records += row.records;
        sum.images += row.images;
        sum.backups += row.backups;
        sum.notes += row.notes;
        sum.replayed += row.replayed;
    }
    sum
}

/// Loads, page images with written victims, records replayed with let-go ones at four intervals.
#[test]
fn two_kinds_of_reader() {
    assert_eq!((stays().len(), rereads().len()), (687, 744));
    let table: [(&[u8], u16, u32, u32, [u32; 4]); 7] = [
        (&stays(), 1, 30, 30, [0, 30, 90, 330]),
        (&stays(), 2, 0, 14, [0, 0, 0, 0]),
        (&rereads(), 2, 399, 44, [0, 441, 2_149, 8_085]),
        (&rereads(), 4, 378, 40, [0, 414, 2_022, 7_686]),
        (&rereads(), 8, 300, 32, [0, 324, 1_588, 6_132]),
        (&rereads(), 15, 48, 18, [0, 51, 251, 987]),
        (&rereads(), 16, 0, 0, [0, 0, 0, 0]),
    ];
    for (events, frames, loads, images, replayed) in table {
        for (at, interval) in [1, 4, 16, 255].into_iter().enumerate() {
            let backups = [336, 80, 16, 0][at];
            let written = total(events, &settings(frames, interval, Victim::Written));
            assert_eq!((written.loads, written.images, written.replayed), (loads, images, 0));
            assert_eq!((written.records, written.backups), (336, backups));
            assert_eq!(written.notes, images + backups);
            let released = total(events, &settings(frames, interval, Victim::Released));
            assert_eq!((released.loads, released.images), (loads, 0), "{frames} {interval}");
            assert_eq!((released.replayed, released.notes), (replayed[at], backups));
        }
    }
}

/// Pages 1 and 2 in two frames; page 1 is read again, so page 3 takes page 2's frame.
#[test]
fn the_least_recently_used_frame() {
    let events = [change(1), change(2), read(1), change(3), read(1), read(2)];
    let rows = rehearse(&events, &settings(2, 255, Victim::Written)).unwrap();
    let row = |loads, records, images| Figures {
        loads,
        records,
        images,
        notes: images,
        ..Figures::default()
    };
    assert_eq!(rows[..4], [row(0, 1, 0), row(1, 1, 1), row(0, 1, 1), row(0, 0, 0)]);
}

/// A read of a page that has not begun is no use of a frame.
#[test]
fn a_read_before_the_first_change() {
    let events = [read(5), change(1), read(5), read(1)];
    let rows = rehearse(&events, &settings(1, 1, Victim::Released)).unwrap();
    let first = Figures { records: 1, backups: 1, notes: 1, ..Figures::default() };
    assert_eq!((rows[0], rows[4]), (first, Figures::default()));
}

/// Written once, a page that comes back unchanged is clean and is not written again.
#[test]
fn a_clean_page_is_not_written() {
    let events = [change(1), change(2), read(1), read(2), read(1)];
    let rows = rehearse(&events, &settings(1, 255, Victim::Written)).unwrap();
    assert_eq!((rows[0].images, rows[1].images), (1, 1));
    assert_eq!((rows[0].loads, rows[1].loads), (2, 1));
}

#[test]
fn what_is_out_of_range() {
    let refused = |events: &[u8], frames, interval| {
        let answer = rehearse(events, &settings(frames, interval, Victim::Written));
        assert!(answer.is_ok() || answer == Err(Refusal::Rehearsal));
        answer.is_err()
    };
    assert!(!refused(&[], 1, 1));
    assert!(!refused(&[read(64); 1_024], 16, 255));
    assert!(refused(&[read(64); 1_025], 16, 255));
    for (frames, interval) in [(0, 1), (17, 1), (257, 1), (1, 0), (1, 256), (1, 257), (1, u32::MAX)]
    {
        assert!(refused(&[], frames, interval), "{frames} {interval}");
    }
    for byte in [0, 65, 127, 128, 193, 255] {
        assert!(refused(&[read(1), byte], 1, 1), "{byte}");
    }
    assert!(!refused(&[read(1), read(64), change(1), change(64)], 1, 1));
}

#[test]
fn the_drivers_line() {
    let call = Call::Rehearse(settings(1, 2, Victim::Released));
    let mut cell = encode(&Op::Call(call));
    assert_eq!((cell[0], cell[1], cell[2], cell[12]), (30, 1, 1, 2));
    assert_eq!(decode(&cell), Op::Call(call));
    cell[1] = 2;
    assert_eq!(decode(&cell), Op::Skip);
    let mut driver = Driver::default();
    driver.second[..5].copy_from_slice(&[change(1), change(1), change(1), change(2), read(1)]);
    driver.second_len = 5;
    let numbers = [1, 3, 0, 1, 1, 1, 0, 1, 0, 0, 0, 0].into_iter().chain([0; 372]);
    assert_eq!(driver.call(&call).to_string(), format!("REHEARSED {}", hash(numbers)));
    driver.second_len = 6;
    assert_eq!(driver.call(&call).to_string(), "REFUSED 25");
}

/// Real calls, chosen from the real state, come to the same figures.
#[test]
fn the_figures_are_those_of_real_calls() {
    let mut rng = Rng::new(3);
    let mut taken = 0;
    for _ in 0..150 {
        taken += u32::from(check_rehearsal(&mut rng).unwrap_or_else(|text| panic!("{text}")));
    }
    assert!(taken > 60, "{taken}");
}
