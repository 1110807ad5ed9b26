//! The archive of a history's volume against the abstract log and against inspection.

use crate::checks::abstract_log::AbstractLog;
use crate::checks::histories::ensure;
use crate::checks::ring::RingView;
use crate::store::answer::{Answer, Refusal};
use crate::store::archive::{archive_length, archive_pages, read_archive, write_archive};
use crate::store::bytes::all_zero;
use crate::store::geometry::IMAGE_LEN;
use crate::store::record::Record;

/// The archive holds the abstract log's changes by page. Gives the area that it reads back to; None
/// where record 1 has left the log.
pub fn check_archive(ring: &RingView) -> Result<Option<Vec<u8>>, String> {
    let (volume, pages) = (ring.world.volume(), ring.world.geometry.pages);
    let length = archive_length(volume);
    if ring.gone() {
        let refused = Err(Refusal::HistoryLost);
        ensure(length == refused, || format!("record 1 has left: {length:?}"))?;
        return Ok(None);
    }
    let expected = archive_from(ring.abstract_log, pages);
    ensure(length == Ok(expected.len()), || format!("an archive's length is {length:?}"))?;
    let mut archive = vec![0xA5; expected.len()];
    let written = write_archive(volume, &mut archive);
    ensure(written == Answer::Done && archive == expected, || format!("an archive: {written}"))?;
    ensure(archive_pages(&archive) == pages, || "an archive's pages are wrong".into())?;
    let mut area = vec![0xA5; IMAGE_LEN * pages];
    let read = read_archive(&archive, &mut area);
    ensure(read == Answer::Done, || format!("an archive reads back {read}"))?;
    Ok(Some(area))
}

/// A page's image in the area is what inspection gave, checksum bytes zero.
pub fn check_read_back(
    area: &[u8],
    page: u16,
    answer: &Answer,
    inspected: &[u8],
) -> Result<(), String> {
    let image = &area[IMAGE_LEN * (usize::from(page) - 1)..][..IMAGE_LEN];
    let same = match answer {
        Answer::Rebuilt(_) => image[..252] == inspected[..252] && all_zero(&image[252..]),
        _ => *answer == Answer::Refused(Refusal::Blank) && all_zero(image),
    };
    ensure(same, || format!("page {page}: {answer}, but the archive has another image"))
}

/// The archive that the durable changes give.
fn archive_from(abstract_log: &AbstractLog, pages: usize) -> Vec<u8> {
    let mut archive = Vec::new();
    for page in 1..=pages as u16 {
        let places = abstract_log.places(page);
        archive.extend((places.len() as u32).to_le_bytes());
        let mut previous = 0;
        for number in places {
            let entry = abstract_log.entry(number);
            let (change, payload) = (entry.change, entry.payload);
            archive.extend(Record { number, previous, page, change, payload }.encode());
            previous = number;
        }
    }
    archive
}
