//! When a state is sound for a volume's geometry and a memory's frames.

use crate::store::geometry::{Geometry, MAX_PENDING};
use crate::store::note::{Note, NoteKind};
use crate::store::state::{Frame, IndexEntry, State};

/// What soundness looks at.
struct View<'a> {
    state: &'a State,
    geometry: &'a Geometry,
    frame_count: usize,
}

type Clause = (&'static str, fn(&View) -> bool);

/// Document 01's "A state is sound if", each clause by itself and good for any numbers.
const CLAUSES: [Clause; 24] = [
    ("durable + pending at most the largest number", |v| {
        v.last_given() <= v.geometry.most_records().into()
    }),
    ("pending at most 16", |v| v.state.pending as usize <= MAX_PENDING),
    ("notes at most the largest number", |v| v.state.notes <= v.geometry.most_notes()),
    ("notes below it if one is pending", |v| {
        v.pending_note(|_| v.state.notes < v.geometry.most_notes())
    }),
    ("no pending note at N 0", |v| v.pending_note(|_| v.geometry.notes != 0)),
    ("pending note layout", |v| {
        v.pending_note(|note| note.kind == NoteKind::BackedUp || note.slot == 0)
    }),
    ("pending note number", |v| {
        v.pending_note(|note| u64::from(note.number) == u64::from(v.state.notes) + 1)
    }),
    ("pending note page", |v| v.pending_note(|note| v.is_page(note.page))),
    ("pending note backup slot", |v| v.pending_note(|note| v.backup_slot_fits(note))),
    ("pending note lsn", |v| v.pending_note(|note| note.lsn <= v.state.durable)),
    ("frame pages at most P", |v| v.frames(|frame| frame.page == 0 || v.is_page(frame.page))),
    ("no page in two frames", |v| v.frames(|frame| v.frames_with(frame.page) <= 1)),
    ("no blank page in a frame", |v| v.entries(|page, entry| entry.newest != 0 || !v.held(page))),
    ("all durable outside the frames", |v| {
        v.entries(|page, entry| v.held(page) || entry.newest == entry.newest_durable)
    }),
    ("empty frames are clean", |v| v.frames(|frame| frame.page != 0 || !frame.dirty)),
    ("frames past F are clean", |v| v.frames_past().iter().all(|frame| !frame.dirty)),
    ("frames past F are empty", |v| v.frames_past().iter().all(|frame| frame.page == 0)),
    ("newest at most durable + pending", |v| {
        v.entries(|_, entry| u64::from(entry.newest) <= v.last_given())
    }),
    ("newest durable at most newest", |v| {
        v.entries(|_, entry| entry.newest_durable <= entry.newest)
    }),
    ("newest durable at most durable", |v| {
        v.entries(|_, entry| entry.newest_durable <= v.state.durable)
    }),
    ("written at most newest durable", |v| {
        v.entries(|_, entry| entry.written <= entry.newest_durable)
    }),
    ("backup number at most newest durable", |v| {
        v.entries(|_, entry| entry.backup_lsn <= entry.newest_durable)
    }),
    ("backup slot at most B", |v| {
        v.entries(|_, entry| usize::from(entry.backup_slot) <= v.geometry.slots)
    }),
    ("pages past P are zero", |v| {
        v.state.index[v.geometry.pages..].iter().all(|entry| *entry == IndexEntry::default())
    }),
];

impl State {
    pub fn is_sound(&self, geometry: &Geometry, frame_count: usize) -> bool {
        let view = View { state: self, geometry, frame_count };
        CLAUSES.iter().all(|(_, holds)| holds(&view))
    }

    /// The clauses of soundness that the state breaks.
    pub fn broken_clauses(&self, geometry: &Geometry, frame_count: usize) -> Vec<&'static str> {
        let view = View { state: self, geometry, frame_count };
        CLAUSES.iter().filter(|(_, holds)| !holds(&view)).map(|(name, _)| *name).collect()
    }
}

/// The names of all clauses.
pub fn clause_names() -> impl Iterator<Item = &'static str> {
    CLAUSES.iter().map(|(name, _)| *name)
}

impl View<'_> {
    /// The last number given. Sums are 64 bits wide.
    fn last_given(&self) -> u64 {
        u64::from(self.state.durable) + u64::from(self.state.pending)
    }

    fn is_page(&self, page: u16) -> bool {
        (1..=self.geometry.pages).contains(&usize::from(page))
    }

    fn pending_note(&self, holds: impl Fn(&Note) -> bool) -> bool {
        self.state.pending_note.as_ref().is_none_or(holds)
    }

    fn backup_slot_fits(&self, note: &Note) -> bool {
        note.kind == NoteKind::Written || note.slot_fits(self.geometry.slots)
    }

    /// Whether all of the F frames are so.
    fn frames(&self, holds: impl Fn(&Frame) -> bool) -> bool {
        self.state.frames[..self.frame_count].iter().all(holds)
    }

    fn frames_past(&self) -> &[Frame] {
        &self.state.frames[self.frame_count..]
    }

    /// How many frames hold a page; 0 for page 0.
    fn frames_with(&self, page: u16) -> usize {
        self.state.frames.iter().filter(|frame| page != 0 && frame.page == page).count()
    }

    /// Whether a page is in a frame.
    fn held(&self, page: u16) -> bool {
        self.frames_with(page) != 0
    }

    /// Whether the index entries of all P pages are so.
    fn entries(&self, holds: impl Fn(u16, &IndexEntry) -> bool) -> bool {
        (1u16..)
            .zip(&self.state.index[..self.geometry.pages])
            .all(|(page, entry)| holds(page, entry))
    }
}
