//! Volumes for document 01's cases, under either heading: P 2, B 1, L 4, N 4.

// Each test program uses a part of it.
#![allow(dead_code)]

use reference::store::calls::make;
use reference::store::geometry::Geometry;
use reference::store::heading::Heading;
use reference::store::image::{blank_image, set_image_lsn};
use reference::store::note::{Note, NoteKind};
use reference::store::record::{Change, Record};

pub const COUNTS: [u32; 4] = [2, 1, 4, 4];

/// Where items lie, the same under every heading.
pub fn geometry() -> Geometry {
    Geometry::new(Heading::First, COUNTS).unwrap()
}

pub fn made(heading: Heading) -> Vec<u8> {
    let mut volume = vec![0xEE; geometry().volume_len()];
    assert!(!make(&mut volume, heading, COUNTS).is_refused());
    volume
}

/// Record `number` of the cases' log: format page 1, format page 2, put page 1.
pub fn record(number: u32) -> [u8; 64] {
    let (page, previous, change) = match number {
        1 => (1, 0, Change::Format { fill: 0x11 }),
        2 => (2, 0, Change::Format { fill: 0x22 }),
        _ => (1, 1, Change::Put { offset: 3, length: 2 }),
    };
    Record { number, previous, page, change, payload: [0x33; 44] }.encode()
}

pub fn set_record(volume: &mut [u8], number: u32, bytes: &[u8; 64]) {
    volume[geometry().record(number as usize)].copy_from_slice(bytes);
}

/// A volume with the cases' three records.
pub fn with_log(heading: Heading) -> Vec<u8> {
    let mut volume = made(heading);
    for number in 1..=3 {
        set_record(&mut volume, number, &record(number));
    }
    volume
}

/// What page 1 and page 2 hold at a number.
pub fn image(heading: Heading, page: u16, lsn: u32) -> [u8; 256] {
    let mut image = blank_image(page);
    image[8..252].fill(if page == 1 { 0x11 } else { 0x22 });
    if lsn >= 3 {
        image[11..13].fill(0x33);
    }
    set_image_lsn(&mut image, lsn);
    heading.seal_image(&mut image);
    image
}

/// Stores page 1's or 2's own image at a number, sealed as the heading asks.
pub fn set_page(volume: &mut [u8], page: u16, lsn: u32) {
    let bytes = image(heading_of(volume), page, lsn);
    volume[geometry().page(page.into())].copy_from_slice(&bytes);
}

/// Stores page 1's image at a number in the slot.
pub fn set_slot(volume: &mut [u8], lsn: u32) {
    let bytes = image(heading_of(volume), 1, lsn);
    volume[geometry().slot(1)].copy_from_slice(&bytes);
}

pub fn heading_of(volume: &[u8]) -> Heading {
    Heading::read(volume).unwrap()
}

/// Stores note 1, of page 1.
pub fn set_note(volume: &mut [u8], kind: NoteKind, lsn: u32) {
    let slot = (kind == NoteKind::BackedUp).into();
    let note = Note { number: 1, page: 1, kind, slot, lsn };
    volume[geometry().note(1)].copy_from_slice(&note.encode());
}
