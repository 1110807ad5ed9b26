//! What exactly is wrong with a volume or in the way of a call, below the refusal's number.

use crate::store::answer::Refusal;

#[derive(Clone, Copy, Debug, PartialEq, Eq)]
pub enum Fault {
    Heading,
    PageCount,
    SlotCount,
    RecordCount,
    NoteCount,
    Length,
    /// Bytes that are not zero past the slot that the next record goes to.
    LogTail,
    /// A slot of the run fails its checksum.
    LogTorn,
    /// Before the first turn: the slot after the last record has a right checksum.
    LogNext,
    /// Before the first turn: record 1 is missing.
    LogStart,
    RecordLayout,
    RecordNumber,
    RecordPage,
    RecordPrevious,
    /// It names one below the run though its page has one in it.
    PreviousBelow,
    FirstNotFormat,
    NotesTail,
    NotesTorn,
    NotesNext,
    NotesStart,
    NoteKind,
    NoteNumber,
    NotePage,
    /// A written note with a slot.
    WrittenSlot,
    /// A backup's slot that is not 1 to B.
    BackupSlot,
    /// The note names no record, one above the log, or another page's.
    NoteZero,
    NoteAboveLog,
    NoteRecord,
    /// A written number above its page's newest.
    WrittenAbove,
    /// Below the page's last written note.
    WrittenOrder,
    /// Below the page's last backup note.
    BackupOrder,
    /// The backup's slot is in the index for the same page.
    SlotTaken,
    /// The backup's slot is in the index for another page.
    SlotTakenByOther,
    ChainChecksum,
    ChainLayout,
    ChainNumber,
    ChainPage,
    ChainPrevious,
    /// Previous number 0 without a format.
    ChainEnd,
    /// The walk goes below the run.
    BelowRun,
    /// No ring, and L records.
    LogEnd,
    /// The numbers have run out.
    LogNumbers,
    /// The record in the next one's slot is pending.
    LogPending,
    /// It is not spare.
    LogNeeded,
    /// N is 0.
    NoNotes,
    /// No ring, and N notes.
    NotesEnd,
    NotesNumbers,
    /// The note in the next one's slot is not spare.
    NotesNeeded,
    /// Record 1 has left the log.
    HistoryLost,
    /// The buffer hasn't the archive's length.
    ArchiveBuffer,
    /// A segment's count is missing.
    ArchiveShort,
    /// It is more than the bytes left hold.
    ArchiveCount,
    /// Bytes are left after the last segment.
    ArchiveRest,
    ArchiveChecksum,
    ArchiveLayout,
    ArchivePage,
    /// The page's low byte alone is right.
    ArchivePageHigh,
    /// A segment's first record has the number 0.
    ArchiveZero,
    /// It names another.
    ArchiveFirst,
    ArchiveNoFormat,
    /// A number that doesn't rise.
    ArchiveOrder,
    /// A record that doesn't name the one before.
    ArchivePrevious,
}

impl Fault {
    /// What an archive can break.
    pub const ARCHIVE: [Fault; 12] = [
        Fault::ArchiveShort,
        Fault::ArchiveCount,
        Fault::ArchiveRest,
        Fault::ArchiveChecksum,
        Fault::ArchiveLayout,
        Fault::ArchivePage,
        Fault::ArchivePageHigh,
        Fault::ArchiveZero,
        Fault::ArchiveFirst,
        Fault::ArchiveNoFormat,
        Fault::ArchiveOrder,
        Fault::ArchivePrevious,
    ];

    /// What a volume can break, and what stands in a record's or note's way.
    pub const ALL: [Fault; 48] = [
        Fault::Heading,
        Fault::PageCount,
        Fault::SlotCount,
        Fault::RecordCount,
        Fault::NoteCount,
        Fault::Length,
        Fault::LogTail,
        Fault::LogTorn,
        Fault::LogNext,
        Fault::LogStart,
        Fault::RecordLayout,
        Fault::RecordNumber,
        Fault::RecordPage,
        Fault::RecordPrevious,
        Fault::PreviousBelow,
        Fault::FirstNotFormat,
        Fault::NotesTail,
        Fault::NotesTorn,
        Fault::NotesNext,
        Fault::NotesStart,
        Fault::NoteKind,
        Fault::NoteNumber,
        Fault::NotePage,
        Fault::WrittenSlot,
        Fault::BackupSlot,
        Fault::NoteZero,
        Fault::NoteAboveLog,
        Fault::NoteRecord,
        Fault::WrittenAbove,
        Fault::WrittenOrder,
        Fault::BackupOrder,
        Fault::SlotTaken,
        Fault::SlotTakenByOther,
        Fault::ChainChecksum,
        Fault::ChainLayout,
        Fault::ChainNumber,
        Fault::ChainPage,
        Fault::ChainPrevious,
        Fault::ChainEnd,
        Fault::BelowRun,
        Fault::LogEnd,
        Fault::LogNumbers,
        Fault::LogPending,
        Fault::LogNeeded,
        Fault::NoNotes,
        Fault::NotesEnd,
        Fault::NotesNumbers,
        Fault::NotesNeeded,
    ];
}

impl From<Fault> for Refusal {
    fn from(fault: Fault) -> Refusal {
        use Fault::*;
        match fault {
            Heading | PageCount | SlotCount | RecordCount | NoteCount | Length => Refusal::Volume,
            LogTail | LogTorn | LogNext | LogStart | RecordLayout | RecordNumber | RecordPage
            | RecordPrevious | PreviousBelow | FirstNotFormat => Refusal::LogBroken,
            NotesTail | NotesTorn | NotesNext | NotesStart | NoteKind | NoteNumber | NotePage
            | WrittenSlot | BackupSlot | NoteZero | NoteAboveLog | NoteRecord | WrittenAbove
            | WrittenOrder | BackupOrder | SlotTaken | SlotTakenByOther => Refusal::NotesBroken,
            ChainChecksum | ChainLayout | ChainNumber | ChainPage | ChainPrevious | ChainEnd => {
                Refusal::ChainBroken
            }
            BelowRun => Refusal::BelowRun,
            LogEnd | LogNumbers | LogPending | LogNeeded => Refusal::LogFull,
            NoNotes | NotesEnd | NotesNumbers | NotesNeeded => Refusal::NotesFull,
            HistoryLost => Refusal::HistoryLost,
            ArchiveBuffer => Refusal::ArchiveBuffer,
            ArchiveShort | ArchiveCount | ArchiveRest | ArchiveChecksum | ArchiveLayout
            | ArchivePage | ArchivePageHigh | ArchiveZero | ArchiveFirst | ArchiveNoFormat
            | ArchiveOrder | ArchivePrevious => Refusal::ArchiveBroken,
        }
    }
}

/// An error with this fault unless the condition holds.
pub fn require(holds: bool, fault: Fault) -> Result<(), Fault> {
    holds.then_some(()).ok_or(fault)
}
