//! What a call answers: refusals with document 01's numbers, and results.

use crate::store::compare::Comparison;
use crate::store::upkeep::Advice;
use std::fmt;

/// Why a call is refused. The value is the number in the table of refusals.
#[derive(Clone, Copy, Debug, PartialEq, Eq)]
#[repr(u8)]
pub enum Refusal {
    Volume = 1,
    Lent = 2,
    PageRange = 3,
    FrameRange = 4,
    SlotRange = 5,
    ChangeRule = 6,
    Blank = 7,
    NotInFrame = 8,
    NotBlankOrInFrame = 9,
    /// The frame's page has a record that is not durable.
    FrameUnsettled = 10,
    PendingFull = 11,
    LogFull = 12,
    NotePending = 13,
    NotesFull = 14,
    NotDurable = 15,
    SlotInIndex = 16,
    LogBroken = 17,
    NotesBroken = 18,
    ChainBroken = 19,
    /// Images are left that pass by the old sum only.
    ImagesLeft = 20,
    ArchiveBuffer = 21,
    ArchiveBroken = 22,
    BelowRun = 23,
    /// The whole history is wanted, and record 1 has left the log.
    HistoryLost = 24,
    /// Events, frames, backup interval or a page out of range.
    Rehearsal = 25,
}

impl Refusal {
    pub fn number(self) -> u8 {
        self as u8
    }
}

/// How a page's own image compares with the index.
#[derive(Clone, Copy, Debug, PartialEq, Eq)]
pub enum Class {
    Good,
    Behind,
    Stale,
    /// The own image doesn't pass.
    Failed,
    /// It passes with a number above the newest durable one.
    Ahead,
}

/// Where the replay starts.
#[derive(Clone, Copy, Debug, PartialEq, Eq)]
pub enum Start {
    Own,
    Backup,
    Format,
}

/// How a page was rebuilt.
#[derive(Clone, Copy, Debug, PartialEq, Eq)]
pub struct Rebuild {
    pub class: Class,
    pub start: Start,
    pub replayed: usize,
}

#[derive(Clone, Copy, Debug, PartialEq, Eq)]
pub enum Answer {
    Done,
    /// Force, Write, Note or Restamp had nothing to store.
    Nothing,
    Rebuilt(Rebuild),
    /// A hash of the figures.
    Forecast(u64),
    /// Bytes of an archive.
    Length(usize),
    /// Sections of an archive.
    Pages(usize),
    /// With a hash of the pages touched.
    Compared(Comparison, u64),
    /// A hash of the figures.
    Rehearsed(u64),
    /// What upkeep says.
    Advised(Advice),
    Refused(Refusal),
}

impl Answer {
    pub fn is_refused(&self) -> bool {
        matches!(self, Answer::Refused(_))
    }
}

impl fmt::Display for Rebuild {
    fn fmt(&self, out: &mut fmt::Formatter) -> fmt::Result {
        let class = match self.class {
            Class::Good => "GOOD",
            Class::Behind => "BEHIND",
            Class::Stale => "STALE",
            Class::Failed => "FAILED",
            Class::Ahead => "AHEAD",
        };
        let start = match self.start {
            Start::Own => "OWN",
            Start::Backup => "BACKUP",
            Start::Format => "FORMAT",
        };
        write!(out, "{class} {start} {}", self.replayed)
    }
}

impl fmt::Display for Comparison {
    fn fmt(&self, out: &mut fmt::Formatter) -> fmt::Result {
        match self {
            Comparison::Agree => write!(out, "AGREE"),
            Comparison::FirstLacks(count) => write!(out, "FIRST {count}"),
            Comparison::SecondLacks(count) => write!(out, "SECOND {count}"),
            Comparison::Differs(number) => write!(out, "DIFFERS {number}"),
        }
    }
}

impl fmt::Display for Answer {
    fn fmt(&self, out: &mut fmt::Formatter) -> fmt::Result {
        match self {
            Answer::Done => write!(out, "OK"),
            Answer::Nothing => write!(out, "NOTHING"),
            Answer::Rebuilt(rebuild) => rebuild.fmt(out),
            Answer::Forecast(hash) => write!(out, "FORECAST {hash}"),
            Answer::Length(length) => write!(out, "LENGTH {length}"),
            Answer::Pages(pages) => write!(out, "PAGES {pages}"),
            Answer::Compared(comparison, hash) => write!(out, "{comparison} {hash}"),
            Answer::Rehearsed(hash) => write!(out, "REHEARSED {hash}"),
            Answer::Advised(advice) => advice.fmt(out),
            Answer::Refused(refusal) => write!(out, "REFUSED {}", refusal.number()),
        }
    }
}
