//! Reading a page from disk: its class, the chain walk and the replay.

use crate::checks::fault::{require, Fault};
use crate::store::answer::{Class, Rebuild, Start};
use crate::store::bytes::is_sealed;
use crate::store::geometry::Geometry;
use crate::store::heading::Heading;
use crate::store::image::{as_frame, blank_image, image_lsn, passes, Image};
use crate::store::record::Record;
use crate::store::section::Section;
use crate::store::state::IndexEntry;

/// The class of a page's own image, as the index sees it.
pub fn classify(heading: Heading, own: &[u8], page: u16, entry: &IndexEntry) -> Class {
    let lsn = image_lsn(own);
    if !passes(heading, own, page) {
        Class::Failed
    } else if lsn > entry.newest_durable {
        Class::Ahead
    } else if lsn == entry.newest_durable {
        Class::Good
    } else if lsn >= entry.written {
        Class::Behind
    } else {
        Class::Stale
    }
}

/// Where a walk starts the replay, and the records that it read, newest first.
pub struct Chain<'a> {
    pub start: Start,
    /// The image that it starts from; none for a format.
    base: Option<&'a [u8]>,
    pub records: Vec<Record>,
}

/// Walks from `page`'s newest durable record (at least 1) to a start. A fault if a record that
/// the walk reads is broken, or if it goes below the log's run before it finds a start.
/// `durable` is the number that the run ends at.
pub fn walk<'a>(
    volume: &'a [u8],
    geometry: &Geometry,
    page: u16,
    entry: &IndexEntry,
    durable: u32,
) -> Result<Chain<'a>, Fault> {
    let log = Section::log(volume, geometry);
    let first = log.first(durable);
    let own = &volume[geometry.page(page.into())];
    let mut number = entry.newest_durable;
    let mut records = Vec::new();
    loop {
        if passes(geometry.heading, own, page) && image_lsn(own) == number {
            return Ok(Chain { start: Start::Own, base: Some(own), records });
        }
        if let Some(backup) = backup_at(volume, geometry, page, entry, number) {
            return Ok(Chain { start: Start::Backup, base: Some(backup), records });
        }
        require(number >= first, Fault::BelowRun)?;
        let record = chain_record(&log, page, number)?;
        records.push(record);
        if record.change.is_format() {
            return Ok(Chain { start: Start::Format, base: None, records });
        }
        number = record.previous;
    }
}

/// Rebuilds `page` up to its newest durable record, checksum bytes zero.
pub fn rebuild(
    volume: &[u8],
    geometry: &Geometry,
    page: u16,
    entry: &IndexEntry,
    durable: u32,
) -> Result<(Rebuild, Image), Fault> {
    let Chain { start, base, records } = walk(volume, geometry, page, entry, durable)?;
    let mut image = base.map_or_else(|| blank_image(page), as_frame);
    for record in records.iter().rev() {
        record.apply(&mut image);
    }
    let own = &volume[geometry.page(page.into())];
    let class = classify(geometry.heading, own, page, entry);
    Ok((Rebuild { class, start, replayed: records.len() }, image))
}

/// The backup, if the index notes exactly `number` and its image passes with it.
fn backup_at<'a>(
    volume: &'a [u8],
    geometry: &Geometry,
    page: u16,
    entry: &IndexEntry,
    number: u32,
) -> Option<&'a [u8]> {
    if entry.backup_slot == 0 || entry.backup_lsn != number {
        return None;
    }
    let backup = &volume[geometry.slot(entry.backup_slot.into())];
    (passes(geometry.heading, backup, page) && image_lsn(backup) == number).then_some(backup)
}

/// Record `number` (at least 1) of `page`'s chain.
fn chain_record(log: &Section, page: u16, number: u32) -> Result<Record, Fault> {
    let bytes = log.item(number);
    require(is_sealed(bytes), Fault::ChainChecksum)?;
    let record = Record::decode(bytes).ok_or(Fault::ChainLayout)?;
    require(record.number == number, Fault::ChainNumber)?;
    require(record.page == page, Fault::ChainPage)?;
    require(record.previous < number, Fault::ChainPrevious)?;
    require(record.previous != 0 || record.change.is_format(), Fault::ChainEnd)?;
    Ok(record)
}
