//! Two durable logs held against each other.

mod common;

use common::*;
use reference::script::cell::{decode, Call, Op};
use reference::script::driver::{hash, Driver};
use reference::store::answer::Refusal;
use reference::store::bytes::{put_u32, seal};
use reference::store::calls::{inspect, make};
use reference::store::compare::{compare, Compared, Comparison};
use reference::store::geometry::Geometry;
use reference::store::heading::Heading;
use reference::store::note::NoteKind;
use reference::store::record::{Change, Record};

/// The answer and the pages listed.
fn listed(first: &[u8], second: &[u8]) -> (Comparison, Vec<usize>) {
    let Compared { comparison, touched } = compare(first, second).unwrap();
    (comparison, (1..=64).filter(|page| touched[page - 1]).collect())
}

fn refused(first: &[u8], second: &[u8], refusal: Refusal) {
    assert_eq!(compare(first, second), Err(refusal));
    assert_eq!(compare(second, first), Err(refusal));
}

/// The cases' log up to a number, in a volume of other counts.
fn beginning(records: u32) -> Vec<u8> {
    let geometry = Geometry::new(Heading::First, [3, 0, 9, 1]).unwrap();
    let mut volume = vec![0; geometry.volume_len()];
    make(&mut volume, Heading::First, geometry.counts());
    for number in 1..=records {
        volume[geometry.record(number as usize)].copy_from_slice(&record(number));
    }
    volume
}

#[test]
fn agreeing_logs_and_beginnings() {
    let whole = with_log(Heading::Second);
    assert_eq!(listed(&made(Heading::First), &beginning(0)), (Comparison::Agree, vec![]));
    assert_eq!(listed(&whole, &beginning(3)), (Comparison::Agree, vec![]));
    assert_eq!(listed(&whole, &beginning(2)), (Comparison::SecondLacks(1), vec![1]));
    assert_eq!(listed(&beginning(1), &whole), (Comparison::FirstLacks(2), vec![1, 2]));
    assert_eq!(listed(&beginning(0), &whole), (Comparison::FirstLacks(3), vec![1, 2]));
}

/// Each field of record 3 by itself; the page's own list is always its own.
#[test]
fn the_first_number_that_differs() {
    let whole = with_log(Heading::First);
    let put = |offset, length| Change::Put { offset, length };
    let plain = Record { number: 3, previous: 1, page: 1, change: put(3, 2), payload: [0x33; 44] };
    let mut other_byte = plain;
    other_byte.payload[1] ^= 1;
    for (record, pages) in [
        (Record { change: put(4, 2), ..plain }, vec![1]),
        (Record { change: put(3, 1), ..plain }, vec![1]),
        (Record { change: Change::Slide { offset: 3, length: 2 }, ..plain }, vec![1]),
        (Record { change: Change::Format { fill: 0 }, ..plain }, vec![1]),
        (Record { page: 2, previous: 2, ..plain }, vec![1, 2]),
        (other_byte, vec![1]),
    ] {
        let mut other = whole.clone();
        set_record(&mut other, 3, &record.encode());
        assert_eq!(listed(&whole, &other), (Comparison::Differs(3), pages.clone()), "{record:?}");
        assert_eq!(listed(&other, &whole), (Comparison::Differs(3), pages));
    }
    let mut other = whole.clone();
    let format = Record { change: Change::Format { fill: 0x12 }, number: 1, previous: 0, ..plain };
    set_record(&mut other, 1, &format.encode());
    assert_eq!(listed(&whole, &other), (Comparison::Differs(1), vec![1, 2]));
}

/// A payload byte past the length is in no record.
#[test]
fn bytes_past_the_length_do_not_count() {
    let mut other = with_log(Heading::First);
    let change = Change::Put { offset: 3, length: 2 };
    let mut payload = [0x44; 44];
    payload[..2].fill(0x33);
    let record = Record { number: 3, previous: 1, page: 1, change, payload };
    set_record(&mut other, 3, &record.encode());
    assert_eq!(listed(&with_log(Heading::Second), &other).0, Comparison::Agree);
}

/// The lowest number wins, whichever volume it is for.
#[test]
fn refusals_for_either_volume() {
    let whole = with_log(Heading::Second);
    let mut notes = whole.clone();
    set_note(&mut notes, NoteKind::Written, 2);
    let mut log = notes.clone();
    set_record(&mut log, 1, &record(2));
    let lost = lost_first();
    let volumes = [
        (&whole[1..], Refusal::Volume),
        (&log, Refusal::LogBroken),
        (&notes, Refusal::NotesBroken),
        (&lost, Refusal::HistoryLost),
    ];
    for (at, (volume, refusal)) in volumes.iter().enumerate() {
        refused(volume, &whole, *refusal);
        for (other, _) in &volumes[at..] {
            refused(volume, other, *refusal);
        }
    }
}

/// A ring whose record 1 was torn by record 5's overwrite.
fn lost_first() -> Vec<u8> {
    let mut volume = with_log(Heading::Second);
    let change = Change::Format { fill: 1 };
    let fourth = Record { number: 4, previous: 3, page: 1, change, payload: [0; 44] };
    set_record(&mut volume, 4, &fourth.encode());
    let mut third = record(3);
    put_u32(&mut third, 4, 1);
    seal(&mut third);
    set_record(&mut volume, 3, &third);
    volume[geometry().record(1)].fill(7);
    volume
}

/// Forged images: the logs agree, the bodies don't.
#[test]
fn logs_alone_are_compared() {
    let whole = with_log(Heading::First);
    let mut forged = whole.clone();
    let mut image = image(Heading::First, 1, 3);
    image[100] ^= 1;
    Heading::First.seal_image(&mut image);
    forged[geometry().page(1)].copy_from_slice(&image);
    assert_eq!(listed(&whole, &forged), (Comparison::Agree, vec![]));
    let (mut one, mut other) = ([0; 256], [0; 256]);
    inspect(&whole, 1, &mut one);
    inspect(&forged, 1, &mut other);
    assert_ne!(one, other);
}

#[test]
fn the_drivers_lines() {
    let mut driver = Driver::default();
    let mut cell = [0; 64];
    cell[0] = 26;
    assert_eq!(decode(&cell), Op::Call(Call::Compare));
    let mut line = |first: &[u8], second: &[u8]| {
        (driver.volume_len, driver.second_len) = (first.len(), second.len());
        driver.volume[..first.len()].copy_from_slice(first);
        driver.second[..second.len()].copy_from_slice(second);
        driver.call(&Call::Compare).to_string()
    };
    let pages = |pages: [u64; 2]| hash(pages.into_iter().chain([0; 62]));
    let whole = with_log(Heading::Second);
    assert_eq!(line(&whole, &whole), format!("AGREE {}", pages([0, 0])));
    assert_eq!(line(&beginning(1), &whole), format!("FIRST 2 {}", pages([1, 1])));
    assert_eq!(line(&whole, &beginning(2)), format!("SECOND 1 {}", pages([1, 0])));
    let mut other = whole.clone();
    let change = Change::Format { fill: 0 };
    let record = Record { number: 2, previous: 0, page: 2, change, payload: [0; 44] };
    set_record(&mut other, 2, &record.encode());
    assert_eq!(line(&whole, &other), format!("DIFFERS 2 {}", pages([1, 1])));
    assert_eq!(line(&whole, &[]), "REFUSED 1");
}
