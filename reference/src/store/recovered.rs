//! What the calls that take volumes but no state start from: refusals 1, 17 and 18, and 24.

use crate::checks::fault::{require, Fault};
use crate::store::geometry::Geometry;
use crate::store::restart::{index_of, Log};
use crate::store::state::State;

/// A volume as a restart finds it.
pub struct Recovered<'a> {
    pub volume: &'a [u8],
    pub geometry: Geometry,
    pub log: Log,
    pub state: State,
}

impl<'a> Recovered<'a> {
    pub fn read(volume: &'a [u8]) -> Result<Recovered<'a>, Fault> {
        let geometry = Geometry::read(volume)?;
        let log = Log::read(volume, &geometry)?;
        let state = index_of(volume, &geometry, &log)?;
        Ok(Recovered { volume, geometry, log, state })
    }

    /// The same where the whole history is wanted.
    pub fn whole(volume: &'a [u8]) -> Result<Recovered<'a>, Fault> {
        let found = Recovered::read(volume)?;
        require(!found.log.has_lost_first(), Fault::HistoryLost)?;
        Ok(found)
    }
}
