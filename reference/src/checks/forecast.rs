//! The forecast of a history's volume against inspection, which is held against the abstract log.

use crate::checks::histories::ensure;
use crate::store::answer::{Answer, Refusal};
use crate::store::forecast::{forecast, Forecast};

/// The figures; those past P are zero.
pub fn check_forecast(volume: &[u8], pages: usize) -> Result<Forecast, String> {
    let rows = forecast(volume).map_err(|refusal| format!("a forecast gives {refusal:?}"))?;
    ensure(rows[pages..].iter().all(|row| *row == Ok(0)), || "a figure past P".into())?;
    Ok(rows)
}

/// A page's figure is what its inspection answered.
pub fn check_figure(rows: &Forecast, page: u16, answer: &Answer) -> Result<(), String> {
    let row = rows[usize::from(page) - 1];
    let expected = match answer {
        Answer::Rebuilt(rebuild) => Ok(rebuild.replayed),
        Answer::Refused(Refusal::Blank) => Ok(0),
        Answer::Refused(refusal) => Err(*refusal),
        _ => return Err(format!("an inspection answers {answer}")),
    };
    ensure(row == expected, || format!("page {page}: {answer}, forecast {row:?}"))
}
