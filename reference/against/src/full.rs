//! Volumes with every log record and every note stored.

use reference::store::geometry::Geometry;
use reference::store::heading::Heading;
use reference::store::note::{Note, NoteKind};
use reference::store::record::{Change, Record, PAYLOAD_LEN};

/// Records of each page that has any.
pub const CHAIN: usize = 16;

/// The largest counts but for the log's.
pub fn geometry(heading: Heading, records: u32) -> Geometry {
    Geometry::new(heading, [64, 128, records, 1024]).expect("the counts are in range")
}

/// A volume whose log and notes are full. Each page that has records has `CHAIN` of them, in
/// turns with the others, and neither its own image nor its backup passes: so its rebuild
/// replays them all. `records` is a multiple of `CHAIN`.
pub fn volume(geometry: &Geometry) -> Vec<u8> {
    let pages = geometry.records / CHAIN;
    let mut volume = vec![0; geometry.volume_len()];
    geometry.format(&mut volume);
    for number in 1..=geometry.records {
        volume[geometry.record(number)].copy_from_slice(&record(number, pages).encode());
    }
    for number in 1..=geometry.notes {
        let note = note(number, pages, geometry);
        volume[geometry.note(number)].copy_from_slice(&note.encode());
    }
    volume
}

fn record(number: usize, pages: usize) -> Record {
    let turn = (number - 1) / pages;
    let change = match turn {
        0 => Change::Format { fill: number as u8 },
        _ if turn.is_multiple_of(2) => Change::Slide { offset: (turn * 10) as u16, length: 44 },
        _ => Change::Put { offset: (turn * 10) as u16, length: 44 },
    };
    let mut payload = [0; PAYLOAD_LEN];
    if turn != 0 {
        payload.fill(number as u8);
    }
    Record {
        number: number as u32,
        previous: number.saturating_sub(pages) as u32,
        page: page(number, pages),
        change,
        payload,
    }
}

/// Notes of a page are in turns written and backed up, the backups in two slots in turns.
fn note(number: usize, pages: usize, geometry: &Geometry) -> Note {
    let turn = (number - 1) / pages;
    let turns = geometry.notes / pages;
    let page = page(number, pages);
    let own_turn = turn * CHAIN / turns;
    let (kind, slot) = match turn % 2 {
        0 => (NoteKind::Written, 0),
        _ => (NoteKind::BackedUp, 2 * page as usize - 1 + turn / 2 % 2),
    };
    let lsn = (own_turn * pages) as u32 + u32::from(page);
    Note { number: number as u32, page, kind, slot: slot as u8, lsn }
}

fn page(number: usize, pages: usize) -> u16 {
    ((number - 1) % pages + 1) as u16
}
