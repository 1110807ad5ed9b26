//! How many records a repair of each page would replay. Images are judged; no page is built.

use crate::store::answer::Refusal;
use crate::store::geometry::MAX_PAGES;
use crate::store::recovered::Recovered;
use crate::store::state::IndexEntry;
use crate::store::walk::walk;

/// The count that an inspection would report, 0 for a blank page; or its refusal where the
/// walk finds no start.
pub type Figure = Result<usize, Refusal>;

pub type Forecast = [Figure; MAX_PAGES];

/// The figures of pages 1 to 64, those past P zero.
pub fn forecast(volume: &[u8]) -> Result<Forecast, Refusal> {
    let found = Recovered::read(volume)?;
    let mut rows = [Ok(0); MAX_PAGES];
    for ((page, row), entry) in (1u16..).zip(&mut rows).zip(&found.state.index) {
        *row = figure(&found, page, entry);
    }
    Ok(rows)
}

fn figure(found: &Recovered, page: u16, entry: &IndexEntry) -> Figure {
    if entry.newest_durable == 0 {
        return Ok(0);
    }
    let chain = walk(found.volume, &found.geometry, page, entry, found.state.durable)?;
    Ok(chain.records.len())
}
