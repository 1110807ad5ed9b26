//! The repair forecast: for each page the count that inspection would report, or its refusal.

mod common;

use common::*;
use reference::generators::arbitrary::arbitrary_script;
use reference::generators::reading::reading_script;
use reference::generators::rng::Rng;
use reference::script::cell::{decode, Call, Op};
use reference::script::driver::{hash, Driver};
use reference::store::answer::{Answer, Refusal};
use reference::store::calls::inspect;
use reference::store::forecast::forecast;
use reference::store::geometry::Geometry;
use reference::store::heading::Heading;
use reference::store::image::set_image_lsn;
use reference::store::note::{Note, NoteKind};
use reference::store::record::{Change, Record};

#[test]
fn own_image_and_backup_are_tested() {
    for heading in Heading::ALL {
        assert_eq!(forecast(&made(heading)), Ok([Ok(0); 64]));
        let mut volume = with_log(heading);
        assert_eq!(forecast(&volume).unwrap()[..3], [Ok(2), Ok(1), Ok(0)]);
        set_note(&mut volume, NoteKind::BackedUp, 3);
        assert_eq!(forecast(&volume).unwrap()[0], Ok(2), "the backup fails");
        set_slot(&mut volume, 1);
        assert_eq!(forecast(&volume).unwrap()[0], Ok(2), "the backup has another number");
        set_slot(&mut volume, 3);
        assert_eq!(forecast(&volume).unwrap()[0], Ok(0));
        volume[geometry().slot(1).start + 20] ^= 1;
        set_page(&mut volume, 1, 1);
        assert_eq!(forecast(&volume).unwrap()[..2], [Ok(1), Ok(1)]);
        set_page(&mut volume, 1, 3);
        set_page(&mut volume, 2, 2);
        assert_eq!(forecast(&volume).unwrap()[..2], [Ok(0), Ok(0)]);
        volume[geometry().page(1).start + 20] ^= 1;
        assert_eq!(forecast(&volume).unwrap()[0], Ok(2), "the own image fails");
    }
}

/// An own image that passes with a number off the chain starts nothing.
#[test]
fn a_number_off_the_chain() {
    for (lsn, count) in [(0, 2), (2, 2), (4, 2), (1, 1)] {
        let mut volume = with_log(Heading::Second);
        set_page(&mut volume, 1, lsn);
        assert_eq!(forecast(&volume).unwrap()[0], Ok(count), "{lsn}");
    }
}

#[test]
fn refusals_are_a_restarts() {
    let mut volume = with_log(Heading::Second);
    assert_eq!(forecast(&volume[1..]), Err(Refusal::Volume));
    set_note(&mut volume, NoteKind::Written, 2);
    assert_eq!(forecast(&volume), Err(Refusal::NotesBroken));
    set_record(&mut volume, 1, &record(2));
    assert_eq!(forecast(&volume), Err(Refusal::LogBroken));
}

/// L 2, records 5 and 6 of page 1; page 2 lives on its backup at 4.
fn turned() -> (Geometry, Vec<u8>) {
    let geometry = Geometry::new(Heading::Second, [3, 2, 2, 2]).unwrap();
    let mut volume = vec![0; geometry.volume_len()];
    geometry.format(&mut volume);
    for (number, previous) in [(5, 3), (6, 5)] {
        let change = Change::Put { offset: 0, length: 1 };
        let put = Record { number, previous, page: 1, change, payload: [1; 44] };
        volume[geometry.record_place(number)].copy_from_slice(&put.encode());
    }
    for (number, page, lsn) in [(1, 2, 4), (2, 1, 3)] {
        let note = Note { number, page, kind: NoteKind::BackedUp, slot: page as u8, lsn };
        volume[geometry.note(number as usize)].copy_from_slice(&note.encode());
    }
    (geometry, volume)
}

fn stored(page: u16, lsn: u32) -> [u8; 256] {
    let mut bytes = image(Heading::Second, page, 1);
    set_image_lsn(&mut bytes, lsn);
    Heading::Second.seal_image(&mut bytes);
    bytes
}

/// A page that is lost gives 23 and the others stand.
#[test]
fn one_page_that_is_lost() {
    let lost = Err(Refusal::BelowRun);
    let (geometry, mut volume) = turned();
    assert_eq!(forecast(&volume).unwrap()[..3], [lost, lost, Ok(0)]);
    volume[geometry.slot(1)].copy_from_slice(&stored(1, 3));
    assert_eq!(forecast(&volume).unwrap()[..3], [Ok(2), lost, Ok(0)]);
    volume[geometry.page(1)].copy_from_slice(&stored(1, 5));
    volume[geometry.slot(2)].copy_from_slice(&stored(2, 4));
    assert_eq!(forecast(&volume).unwrap()[..3], [Ok(1), Ok(0), Ok(0)]);
}

#[test]
fn the_drivers_line() {
    let (geometry, mut volume) = turned();
    volume[geometry.slot(1)].copy_from_slice(&stored(1, 3));
    let mut driver = Driver::default();
    driver.volume_len = volume.len();
    driver.volume[..volume.len()].copy_from_slice(&volume);
    let numbers = [0, 2, 23, 0].into_iter().chain([0; 124]);
    let mut cell = [0; 64];
    cell[0] = 22;
    assert_eq!(decode(&cell), Op::Call(Call::Forecast));
    let line = driver.call(&Call::Forecast).to_string();
    assert_eq!(line, format!("FORECAST {}", hash(numbers)));
}

/// On any volume: what inspection answers.
#[test]
fn the_figure_is_inspections_count() {
    let (mut counted, mut lost) = (0, 0);
    for seed in 0..6 {
        let mut driver = Driver::default();
        let mut script = arbitrary_script(&mut Rng::new(seed), 1_000);
        script.extend(reading_script(&mut Rng::new(seed), 1_000));
        for cell in script {
            driver.run(&decode(&cell));
            let volume = driver.volume();
            let pages = Geometry::read(volume).map_or(1, |geometry| geometry.pages);
            if pages > 8 {
                continue;
            }
            let rows = forecast(volume);
            for page in 1..=pages {
                let answer = inspect(volume, page as u16, &mut [0; 256]);
                let expected = match answer {
                    Answer::Rebuilt(rebuild) => Ok(Ok(rebuild.replayed)),
                    Answer::Refused(Refusal::Blank) => Ok(Ok(0)),
                    Answer::Refused(Refusal::BelowRun) => Ok(Err(Refusal::BelowRun)),
                    Answer::Refused(refusal) => Err(refusal),
                    other => panic!("{other}"),
                };
                assert_eq!(rows.map(|rows| rows[page - 1]), expected);
                counted += u32::from(expected.is_ok());
                lost += u32::from(expected == Ok(Err(Refusal::BelowRun)));
            }
        }
    }
    assert!(counted > 5_000 && lost > 50, "{counted} {lost}");
}
