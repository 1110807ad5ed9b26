//! The log archive: its length, its bytes, its reader and what that turns down.

mod common;

use common::*;
use reference::generators::arbitrary::arbitrary_script;
use reference::generators::rng::Rng;
use reference::script::cell::decode;
use reference::script::driver::Driver;
use reference::store::answer::{Answer, Refusal};
use reference::store::archive::{archive_length, archive_pages, read_archive, write_archive};
use reference::store::bytes::{put_u16, put_u32, seal};
use reference::store::calls::inspect;
use reference::store::geometry::Geometry;
use reference::store::heading::Heading;

const BROKEN: Answer = Answer::Refused(Refusal::ArchiveBroken);

/// Sections of the cases' log: records 1 and 3, then record 2.
fn archive() -> Vec<u8> {
    let count = |count: u32| count.to_le_bytes();
    [&count(2)[..], &record(1), &record(3), &count(1), &record(2)].concat()
}

fn read(archive: &[u8], pages: usize) -> (Answer, Vec<u8>) {
    let mut area = vec![0xA5; 256 * pages];
    let answer = read_archive(archive, &mut area);
    (answer, area)
}

/// A refused reader writes nothing.
fn turned_down(archive: &[u8], pages: usize) -> bool {
    let (answer, area) = read(archive, pages);
    answer == BROKEN && area == vec![0xA5; 256 * pages]
}

#[test]
fn written_as_told_and_read_back() {
    for heading in Heading::ALL {
        let volume = with_log(heading);
        assert_eq!(archive_length(&volume), Ok(200));
        let mut buffer = vec![9; 200];
        assert_eq!(write_archive(&volume, &mut buffer), Answer::Done);
        assert_eq!(buffer, archive());
        for length in [0, 199, 201] {
            let mut buffer = vec![9; length];
            let refused = Answer::Refused(Refusal::ArchiveBuffer);
            assert_eq!(write_archive(&volume, &mut buffer), refused);
            assert_eq!(buffer, vec![9; length]);
        }
        let (answer, area) = read(&buffer, 2);
        assert_eq!(answer, Answer::Done);
        for (page, lsn) in [(1, 3), (2, 2)] {
            let found = &area[256 * (page - 1)..256 * page];
            assert_eq!(found[..252], image(heading, page as u16, lsn)[..252]);
            assert_eq!(found[252..], [0; 4]);
        }
    }
}

#[test]
fn a_blank_page_is_zeros() {
    let volume = made(Heading::Second);
    assert_eq!(archive_length(&volume), Ok(8));
    let (answer, area) = read(&[0; 8], 2);
    assert_eq!((answer, area), (Answer::Done, vec![0; 512]));
}

#[test]
fn refusals_of_the_writer() {
    let mut volume = with_log(Heading::Second);
    assert_eq!(archive_length(&volume[1..]), Err(Refusal::Volume));
    set_note(&mut volume, reference::store::note::NoteKind::Written, 2);
    assert_eq!(archive_length(&volume), Err(Refusal::NotesBroken));
    set_record(&mut volume, 1, &record(2));
    assert_eq!(archive_length(&volume), Err(Refusal::LogBroken));
}

/// 24 comes before 21, and not on a fresh volume whose slot 1 is torn.
#[test]
fn the_whole_history_is_wanted() {
    let geometry = Geometry::new(Heading::Second, [1, 0, 2, 0]).unwrap();
    let mut volume = vec![0; geometry.volume_len()];
    geometry.format(&mut volume);
    volume[geometry.record(1)].fill(7);
    assert_eq!(archive_length(&volume), Ok(4));
    let mut late = record(1);
    put_u32(&mut late, 0, 2);
    seal(&mut late);
    volume[geometry.record(2)].copy_from_slice(&late);
    assert_eq!(archive_length(&volume), Err(Refusal::HistoryLost));
    let refused = Answer::Refused(Refusal::HistoryLost);
    assert_eq!(write_archive(&volume, &mut [0; 3]), refused);
}

#[test]
fn areas() {
    for length in [0, 255, 257, 256 * 65, 256 * 64 + 1] {
        let mut area = vec![1; length];
        assert_eq!(read_archive(&archive(), &mut area), Answer::Refused(Refusal::Lent));
        assert_eq!(area, vec![1; length]);
    }
    assert_eq!(read(&[0; 4 * 64], 64).0, Answer::Done);
    for pages in [1, 3, 64] {
        assert!(turned_down(&archive(), pages));
    }
}

/// Each edit of a record, sealed again, and the record's place.
#[test]
fn records_that_are_turned_down() {
    let edits: [(usize, fn(&mut [u8])); 13] = [
        (4, |record| put_u32(record, 0, 0)),
        (4, |record| put_u32(record, 0, 3)),
        (4, |record| put_u32(record, 0, 5)),
        (4, |record| put_u32(record, 4, 1)),
        (4, |record| record[10..12].copy_from_slice(&[2, 1])),
        (68, |record| put_u32(record, 0, 1)),
        (68, |record| put_u32(record, 4, 0)),
        (68, |record| put_u32(record, 4, 2)),
        (68, |record| put_u16(record, 8, 2)),
        (68, |record| put_u16(record, 8, 257)),
        (68, |record| record[15] = 1),
        (68, |record| record[59] = 1),
        (68, |record| record[11] = 0),
    ];
    for (at, edit) in edits {
        let mut bytes = archive();
        edit(&mut bytes[at..at + 64]);
        seal(&mut bytes[at..at + 64]);
        assert!(turned_down(&bytes, 2), "{at}: {:?}", &bytes[at..at + 64]);
    }
    let mut bytes = archive();
    bytes[68 + 60] ^= 1;
    assert!(turned_down(&bytes, 2));
}

/// What no rule asks for: gapless numbers, or numbers distinct across sections.
#[test]
fn numbers_of_two_sections_may_meet() {
    let mut bytes = archive();
    for (at, number) in [(68, 4_000_000_000), (136, 1)] {
        put_u32(&mut bytes, at, number);
        seal(&mut bytes[at..at + 64]);
    }
    assert_eq!(read(&bytes, 2).0, Answer::Done);
    assert_eq!(read(&bytes, 2).1[4..8], 4_000_000_000u32.to_le_bytes());
}

#[test]
fn lengths_and_counts() {
    let whole = archive();
    assert!(turned_down(&whole[..199], 2));
    assert!(turned_down(&whole[..132], 2));
    assert!(turned_down(&[&whole[..], &[0]].concat(), 2));
    assert!(turned_down(&[&whole[..], &[0; 4]].concat(), 2));
    for (at, count) in [(0, 1), (0, 3), (0, 2 | 1 << 26), (132, 0), (132, 2), (132, u32::MAX)] {
        let mut bytes = whole.clone();
        put_u32(&mut bytes, at, count);
        assert!(turned_down(&bytes, 2), "{at} {count}");
    }
}

#[test]
fn pages_of_an_archive() {
    let whole = archive();
    assert_eq!(archive_pages(&whole), 2);
    assert_eq!(archive_pages(&[&whole[..], &[0; 4]].concat()), 3);
    for bytes in [&whole[..199], &[], &[0; 3], &[0; 260], &[1, 0, 0, 0], &[0, 0, 0, 4]] {
        assert_eq!(archive_pages(bytes), 0, "{}", bytes.len());
    }
    assert_eq!((archive_pages(&[0; 4]), archive_pages(&[0; 256])), (1, 64));
    let mut unread = whole;
    unread[4] ^= 1;
    assert_eq!(archive_pages(&unread), 2, "records aren't judged");
}

/// On any volume that restarts with record 1: what is read back is what inspection gives
/// once every image fails.
#[test]
fn read_back_without_images() {
    let mut compared = 0;
    for seed in 0..8 {
        let mut driver = Driver::default();
        for cell in arbitrary_script(&mut Rng::new(seed), 1_000) {
            driver.run(&decode(&cell));
            let Ok(length) = archive_length(driver.volume()) else { continue };
            let geometry = Geometry::read(driver.volume()).unwrap();
            if geometry.pages > 8 {
                continue;
            }
            let mut archive = vec![0; length];
            assert_eq!(write_archive(driver.volume(), &mut archive), Answer::Done);
            assert_eq!(archive_pages(&archive), geometry.pages);
            let (answer, area) = read(&archive, geometry.pages);
            assert_eq!(answer, Answer::Done);
            compare_with_inspect(driver.volume(), &geometry, &area);
            compared += 1;
        }
    }
    assert!(compared > 1_000);
}

fn compare_with_inspect(volume: &[u8], geometry: &Geometry, area: &[u8]) {
    let mut volume = volume.to_vec();
    volume[8..geometry.page(geometry.pages).end].fill(0);
    for slot in 1..=geometry.slots {
        volume[geometry.slot(slot)].fill(0);
    }
    for page in 1..=geometry.pages {
        let mut buffer = [0; 256];
        let answer = inspect(&volume, page as u16, &mut buffer);
        assert!(!answer.is_refused() || answer == Answer::Refused(Refusal::Blank));
        let found = &area[256 * (page - 1)..256 * page];
        assert_eq!((&found[..252], &found[252..]), (&buffer[..252], &[0; 4][..]));
    }
}
