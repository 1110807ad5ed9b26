//! Every call with every answer that it can give.

use crate::checks::coverage::Hit;
use crate::script::cell::Call;
use crate::store::heading::Heading;

/// A call's name, the refusals that it can give, and its other answers.
pub struct Row {
    pub name: &'static str,
    pub refusals: &'static [u8],
    pub answers: &'static [&'static str],
}

impl Row {
    /// The call with each of its answers.
    pub fn hits(&self) -> impl Iterator<Item = Hit> + '_ {
        let refusals = self.refusals.iter().map(|number| format!("REFUSED {number}"));
        let answers = self.answers.iter().map(|answer| answer.to_string());
        refusals.chain(answers).map(|answer| (self.name, answer))
    }
}

/// The class and start pairs there are: Good is always own, Failed and Ahead never.
pub const REBUILDS: &[&str] = &[
    "GOOD OWN",
    "BEHIND OWN",
    "BEHIND BACKUP",
    "BEHIND FORMAT",
    "STALE OWN",
    "STALE BACKUP",
    "STALE FORMAT",
    "FAILED BACKUP",
    "FAILED FORMAT",
    "AHEAD BACKUP",
    "AHEAD FORMAT",
];
const OK: &[&str] = &["OK"];
const OK_OR_NOTHING: &[&str] = &["OK", "NOTHING"];

pub const ROWS: &[Row] = &[
    Row { name: "make", refusals: &[1], answers: OK },
    Row { name: "makefirst", refusals: &[1], answers: OK },
    Row { name: "restart", refusals: &[1, 2, 17, 18], answers: OK },
    Row { name: "begin", refusals: &[1, 2, 3, 4, 9, 10, 11, 12], answers: OK },
    Row { name: "load", refusals: &[1, 2, 3, 4, 7, 9, 10, 19, 23], answers: REBUILDS },
    Row { name: "change", refusals: &[1, 2, 3, 6, 8, 11, 12], answers: OK },
    Row { name: "force", refusals: &[1, 2], answers: OK_OR_NOTHING },
    Row { name: "write", refusals: &[1, 2, 3, 8, 13, 14, 15], answers: OK_OR_NOTHING },
    Row { name: "backup", refusals: &[1, 2, 3, 5, 8, 13, 14, 15, 16], answers: OK },
    Row { name: "note", refusals: &[1, 2], answers: OK_OR_NOTHING },
    Row { name: "inspect", refusals: &[1, 2, 3, 7, 17, 18, 23], answers: REBUILDS },
    Row { name: "release", refusals: &[1, 2, 3, 8, 10], answers: OK },
];

/// The calls that carry a volume from the first heading to the second.
pub const CARRY_ROWS: &[Row] = &[
    Row { name: "start", refusals: &[1, 2], answers: OK },
    Row { name: "restamp", refusals: &[1, 2], answers: OK_OR_NOTHING },
    Row { name: "finish", refusals: &[1, 2, 20], answers: OK },
];

/// The calls that take a volume or an archive but no state.
pub const READING_ROWS: &[Row] = &[
    Row { name: "forecast", refusals: &[1, 17, 18], answers: &["FORECAST"] },
    Row { name: "length", refusals: &[1, 17, 18, 24], answers: &["LENGTH"] },
    Row { name: "archive", refusals: &[1, 17, 18, 21, 24], answers: OK },
    Row { name: "unarchive", refusals: &[2, 22], answers: OK },
    Row { name: "pages", refusals: &[], answers: &["PAGES", "PAGES 0"] },
];

/// The call that takes two volumes.
pub const MIRROR_ROWS: &[Row] = &[Row {
    name: "compare",
    refusals: &[1, 17, 18, 24],
    answers: &["AGREE", "FIRST", "SECOND", "DIFFERS"],
}];

/// What upkeep says.
pub const UPKEEP_ROWS: &[Row] =
    &[Row { name: "advise", refusals: &[1, 2, 4], answers: &["ADVISE", "IDLE", "STUCK"] }];

/// The call that takes no volume.
pub const REHEARSE_ROWS: &[Row] =
    &[Row { name: "rehearse", refusals: &[25], answers: &["REHEARSED"] }];

/// Whether a call takes no state; Make, Restart and Inspect count with the others.
pub fn is_reading(call: &Call) -> bool {
    let rows = READING_ROWS.iter().chain(MIRROR_ROWS).chain(REHEARSE_ROWS);
    rows.into_iter().any(|row| row.name == name_of(call))
}

/// The name of a call in the tables.
pub fn name_of(call: &Call) -> &'static str {
    match call {
        Call::Make { heading: Heading::First, .. } => "makefirst",
        Call::Make { .. } => "make",
        Call::Restart => "restart",
        Call::Begin { .. } => "begin",
        Call::Load { .. } => "load",
        Call::Change { .. } => "change",
        Call::Force => "force",
        Call::Write { .. } => "write",
        Call::Backup { .. } => "backup",
        Call::Note => "note",
        Call::Inspect { .. } => "inspect",
        Call::Release { .. } => "release",
        Call::Start => "start",
        Call::Restamp => "restamp",
        Call::Finish => "finish",
        Call::Forecast => "forecast",
        Call::Length => "length",
        Call::Archive => "archive",
        Call::Unarchive => "unarchive",
        Call::Compare => "compare",
        Call::Pages => "pages",
        Call::Rehearse(_) => "rehearse",
        Call::Advise { .. } => "advise",
    }
}
