//! A policy that keeps a ring turning: it renews what stands in the way of the next items.

use crate::generators::choose::{change, payload, Kind};
use crate::generators::history::chooser;
use crate::generators::rng::Rng;
use crate::generators::world::World;
use crate::script::cell::Call;
use crate::store::note::{Note, NoteKind};
use crate::store::record::Record;
use crate::store::section::Section;

/// The next call of someone who looks after the store.
pub fn renewal_call(world: &World, rng: &mut Rng) -> Call {
    let state = &world.script.driver.state;
    if state.pending_note.is_some() {
        return Call::Note;
    }
    if state.pending > 0 && rng.chance(600) {
        return Call::Force;
    }
    if let Some((page, kind)) = note_in_the_way(world) {
        return renew(world, page, kind, rng);
    }
    if let Some(page) = record_in_the_way(world) {
        return renew(world, page, NoteKind::BackedUp, rng);
    }
    let kind = rng.pick(&[Kind::Begin, Kind::Load, Kind::Change, Kind::Change, Kind::Write]);
    chooser(world).sensible(kind, rng)
}

/// Page and kind of a note that the note after next would displace and that is the last of
/// them: once it is the next one's turn, it is too late.
fn note_in_the_way(world: &World) -> Option<(u16, NoteKind)> {
    let state = &world.script.driver.state;
    if world.geometry.notes == 0 {
        return None;
    }
    let notes = Section::notes(world.volume(), &world.geometry);
    let oldest = notes.displaced(state.notes.checked_add(1)?)?;
    let note = Note::decode(notes.standing(oldest)?)?;
    let renewed = (oldest + 1..=state.notes)
        .filter_map(|number| notes.standing(number).and_then(Note::decode))
        .any(|later| (later.page, later.kind) == (note.page, note.kind));
    (!renewed).then_some((note.page, note.kind))
}

/// Page of the record that the next one would displace, if its backup is below it.
fn record_in_the_way(world: &World) -> Option<u16> {
    let state = &world.script.driver.state;
    let log = Section::log(world.volume(), &world.geometry);
    let oldest = log.displaced(state.durable.checked_add(state.pending)?)?;
    let page = Record::page_of(log.standing(oldest)?);
    let entry = state.index.get(usize::from(page).checked_sub(1)?)?;
    (entry.backup_slot == 0 || entry.backup_lsn < oldest).then_some(page)
}

/// The next call towards a new note of this page and kind.
fn renew(world: &World, page: u16, kind: NoteKind, rng: &mut Rng) -> Call {
    let state = &world.script.driver.state;
    let Some(frame) = state.frame_of(page) else {
        return match chooser(world).sensible(Kind::Load, rng) {
            Call::Load { frame, .. } => Call::Load { page, frame },
            other => other,
        };
    };
    if state.pending > 0 {
        return Call::Force;
    }
    match kind {
        NoteKind::Written if state.frame(frame).dirty => Call::Write { page },
        NoteKind::Written => Call::Change { page, change: change(rng), payload: payload(rng) },
        NoteKind::BackedUp => match chooser(world).sensible(Kind::Backup, rng) {
            Call::Backup { slot, .. } => Call::Backup { page, slot },
            other => other,
        },
    }
}
