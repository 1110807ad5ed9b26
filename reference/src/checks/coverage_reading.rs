//! What is looked for beyond the answers of the calls that take volumes but no state.

use crate::checks::coverage::{label, Hit, CAUSE};
use crate::checks::coverage_compare::{compare_cases, COMPARE_CASES};
use crate::checks::coverage_rehearse::{rehearse_cases, REHEARSE_CASES};
use crate::checks::coverage_table::{Row, MIRROR_ROWS, READING_ROWS, REBUILDS, REHEARSE_ROWS};
use crate::checks::fault::Fault;
use crate::script::cell::Call;
use crate::script::driver::Driver;
use crate::store::answer::{Answer, Refusal};
use crate::store::archive::{archive_length, segments};
use crate::store::calls::inspect;
use crate::store::forecast::forecast;
use crate::store::geometry::{Geometry, IMAGE_LEN, MAX_PAGES};
use std::collections::BTreeSet;

const LOST_BESIDE: &str = "one page lost beside another";

/// Cases that the answer alone doesn't tell.
const CASES: &[&str] = &[
    LOST_BESIDE,
    "forecast of REFUSED 7",
    "forecast of REFUSED 23",
    "buffer too short",
    "buffer too long",
    "area empty",
    "area uneven",
    "area too large",
    "blank page read back",
];

/// Every such call with every answer that it can give, and the cases behind the answers.
pub fn reading_targets() -> BTreeSet<Hit> {
    let answers = READING_ROWS.iter().flat_map(|row| row.hits());
    let faults = Fault::ARCHIVE.iter().map(|fault| format!("{fault:?}"));
    let rebuilds = REBUILDS.iter().map(|rebuild| format!("forecast of {rebuild}"));
    let cases = CASES.iter().map(|case| case.to_string()).chain(faults).chain(rebuilds);
    answers.chain(cases.map(|case| (CAUSE, case))).collect()
}

/// The same for the call that takes two volumes.
pub fn mirror_targets() -> BTreeSet<Hit> {
    with_cases(MIRROR_ROWS, COMPARE_CASES)
}

/// The same for the call that takes none.
pub fn rehearse_targets() -> BTreeSet<Hit> {
    with_cases(REHEARSE_ROWS, REHEARSE_CASES)
}

fn with_cases(rows: &[Row], cases: &[&str]) -> BTreeSet<Hit> {
    let cases = cases.iter().map(|case| (CAUSE, case.to_string()));
    rows.iter().flat_map(|row| row.hits()).chain(cases).collect()
}

/// The cases behind the answer of a call that the driver has made.
pub fn cases(driver: &Driver, call: &Call, answer: &Answer) -> Vec<String> {
    let cases = match (call, answer) {
        (Call::Forecast, Answer::Forecast(_)) => return forecast_cases(driver.volume()),
        (Call::Compare, _) => return compare_cases(driver),
        (Call::Rehearse(settings), _) => return rehearse_cases(driver, settings),
        (Call::Archive, Answer::Refused(Refusal::ArchiveBuffer)) => vec![buffer_case(driver)],
        (Call::Unarchive, Answer::Refused(Refusal::Lent)) => vec![area_case(driver.lent_len)],
        (Call::Unarchive, Answer::Done) => {
            let blank = driver.lent().chunks(IMAGE_LEN).any(|image| image[..2] == [0, 0]);
            if blank {
                vec!["blank page read back"]
            } else {
                Vec::new()
            }
        }
        (Call::Unarchive, Answer::Refused(_)) => {
            let fault = segments(driver.second(), driver.lent_len / IMAGE_LEN).err();
            return fault.map(|fault| format!("{fault:?}")).into_iter().collect();
        }
        _ => Vec::new(),
    };
    cases.into_iter().map(String::from).collect()
}

/// What inspection finds of the pages, and whether one is lost beside another that is not.
fn forecast_cases(volume: &[u8]) -> Vec<String> {
    let rows = forecast(volume).unwrap_or([Ok(0); MAX_PAGES]);
    let pages = Geometry::read(volume).map_or(0, |geometry| geometry.pages as u16);
    let mut cases: Vec<String> =
        (1..=pages).map(|page| forecast_of(&inspect(volume, page, &mut [0; IMAGE_LEN]))).collect();
    if rows.iter().any(|row| row.is_err()) && rows.iter().any(|row| row.is_ok_and(|n| n > 0)) {
        cases.push(LOST_BESIDE.into());
    }
    cases
}

fn forecast_of(answer: &Answer) -> String {
    format!("forecast of {}", label(&answer.to_string()))
}

fn buffer_case(driver: &Driver) -> &'static str {
    match archive_length(driver.volume()) {
        Ok(length) if driver.lent_len < length => "buffer too short",
        _ => "buffer too long",
    }
}

fn area_case(len: usize) -> &'static str {
    match len {
        0 => "area empty",
        _ if len % IMAGE_LEN != 0 => "area uneven",
        _ => {
            assert!(len > MAX_PAGES * IMAGE_LEN);
            "area too large"
        }
    }
}
