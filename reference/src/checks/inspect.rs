//! Inspections of a history's volume against the abstract log.

use crate::checks::abstract_log::Replay;
use crate::checks::archive::{check_archive, check_read_back};
use crate::checks::carrying::sums;
use crate::checks::forecast::{check_figure, check_forecast};
use crate::checks::histories::{ensure, Checker};
use crate::store::answer::{Answer, Class, Rebuild, Refusal, Start};
use crate::store::bytes::{u16_at, u32_at};
use crate::store::calls::inspect;
use crate::store::heading::Heading;
use crate::store::image::BODY;

impl Checker {
    /// Inspect for every page: 7 exactly if blank, 23 if it is beyond repair, else the
    /// replay's number and body.
    pub fn inspect_all(&self) -> Result<(), String> {
        let noted = self.noted()?;
        self.check_ring(&noted)?;
        let forecast = check_forecast(self.world.volume(), self.world.geometry.pages)?;
        let area = check_archive(&self.ring(&noted))?;
        for page in 1..=self.world.geometry.pages as u16 {
            let mut buffer = [0xA5; 256];
            let answer = inspect(self.world.volume(), page, &mut buffer);
            self.ring(&noted).check_below(page, &answer)?;
            check_figure(&forecast, page, &answer)?;
            area.iter().try_for_each(|area| check_read_back(area, page, &answer, &buffer))?;
            match (answer, self.abstract_log.replay(page)) {
                (Answer::Refused(Refusal::Blank), None) => {
                    ensure(buffer == [0xA5; 256], || "a refused Inspect wrote".into())?
                }
                (Answer::Refused(Refusal::BelowRun), Some(_)) => {
                    ensure(buffer == [0xA5; 256], || "a refused Inspect wrote".into())?
                }
                (Answer::Rebuilt(rebuild), replay @ Some(_)) => {
                    same(&buffer, replay, "Inspect", page)?;
                    ensure(self.newly_sealed(&buffer), || "Inspect set no checksum".into())?;
                    self.check_rebuild(page, &rebuild, &buffer)?;
                }
                (answer, replay) => {
                    let number = replay.map(|replay| replay.number);
                    return Err(format!(
                        "Inspect of page {page}: {answer}, abstract log {number:?}"
                    ));
                }
            }
        }
        Ok(())
    }

    /// Whether an image has the sum of new ones: words under the first heading, else bytes.
    fn newly_sealed(&self, image: &[u8]) -> bool {
        match self.world.geometry.heading {
            Heading::First => sums(image).words,
            _ => sums(image).bytes,
        }
    }

    /// Class, start and count replayed, told from the abstract log, the own image and the notes.
    pub fn check_rebuild(&self, page: u16, rebuild: &Rebuild, image: &[u8]) -> Result<(), String> {
        let own = &self.world.volume()[self.world.geometry.page(page.into())];
        let good = own[..252] == image[..252] && self.world.item_sealed(own);
        ensure(good == (rebuild.class == Class::Good), || format!("page {page}: {rebuild}"))?;
        ensure(rebuild.class != Class::Ahead, || format!("a history made page {page} {rebuild}"))?;
        let untouched = rebuild.start == Start::Own && rebuild.replayed == 0;
        ensure(good == untouched, || format!("page {page}: {rebuild}"))?;
        let places = self.abstract_log.places(page);
        let after = |number: u32| places.iter().filter(|&&place| place > number).count();
        let is_format = |&&place: &&u32| self.abstract_log.entry(place).change.is_format();
        let last_format = places.iter().rev().find(is_format).copied().unwrap_or(1);
        let noted = self.noted()?.entry(page).backup_lsn;
        let expected = match rebuild.start {
            Start::Own => after(u32_at(own, 4)),
            Start::Backup => after(noted),
            Start::Format => after(last_format) + 1,
        };
        ensure(rebuild.replayed == expected, || format!("page {page}: {rebuild}, {places:?}"))
    }
}

/// Whether bytes 4 to 251 of an image are the replay's, and the page number is right.
pub fn same(image: &[u8], replay: Option<Replay>, what: &str, page: u16) -> Result<(), String> {
    let Some(replay) = replay else {
        return Err(format!("{what} of page {page}, which the abstract log calls blank"));
    };
    ensure(u16_at(image, 0) == page && u16_at(image, 2) == 0, || {
        format!("{what} of page {page}: first bytes {:?}", &image[..4])
    })?;
    ensure(u32_at(image, 4) == replay.number, || {
        format!(
            "{what} of page {page}: number {}, abstract log {}",
            u32_at(image, 4),
            replay.number
        )
    })?;
    ensure(image[BODY] == replay.body, || format!("{what} of page {page}: body differs"))
}
