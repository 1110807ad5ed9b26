//! What carrying a volume over means for a history. Told apart from the store's own tests,
//! which it is to contradict.

use crate::generators::world::{Place, World};
use crate::store::bytes::{byte_checksum, checksum, u16_at, u32_at};
use crate::store::geometry::IMAGE_LEN;
use crate::store::note::NoteKind;
use crate::store::state::State;

/// Which sums an image's last four bytes hold.
#[derive(Clone, Copy, Debug, PartialEq, Eq)]
pub struct Sums {
    pub words: bool,
    pub bytes: bool,
}

pub fn sums(image: &[u8]) -> Sums {
    let (before, held) = (&image[..IMAGE_LEN - 4], u32_at(image, IMAGE_LEN - 4));
    Sums { words: checksum(before) == held, bytes: byte_checksum(before) == held }
}

/// Whether an image is of a page that belongs in its place by this index, sum aside.
pub fn belongs(world: &World, index: &State, place: Place, image: &[u8]) -> bool {
    let page = u16_at(image, 0);
    let in_range = (1..=world.geometry.pages).contains(&usize::from(page));
    let page_right = match place {
        Place::Page(own) => page == own,
        Place::Slot(slot) => {
            let is_owner = |at: &usize| u16::from(index.index[*at].backup_slot) == slot;
            let owners: Vec<usize> = (0..index.index.len()).filter(is_owner).collect();
            match owners.is_empty() {
                true => in_range,
                false => owners.contains(&usize::from(page).wrapping_sub(1)),
            }
        }
    };
    page_right && image[2..4] == [0, 0]
}

/// The places whose images pass there by the old sum only.
pub fn old_places(world: &World, index: &State) -> Vec<Place> {
    let is_old = |place: &Place| {
        let image = &world.volume()[world.place(*place)];
        let only_words = sums(image) == Sums { words: true, bytes: false };
        only_words && belongs(world, index, *place, image)
    };
    world.places().into_iter().filter(is_old).collect()
}

/// A place that the store relies on whose image passes by the new sum only. There is none
/// when a history starts to carry its volume over.
pub fn in_the_way_of_start(world: &World) -> Option<Place> {
    let state = &world.script.driver.state;
    let pages = 1..=world.geometry.pages as u16;
    let own = pages.clone().map(|page| (Place::Page(page), page));
    let noted = pages
        .map(|page| (Place::Slot(state.entry(page).backup_slot.into()), page))
        .filter(|(place, _)| *place != Place::Slot(0));
    let pending_note = state.pending_note.iter().filter(|note| note.kind == NoteKind::BackedUp);
    let pending_note = pending_note.map(|note| (Place::Slot(note.slot.into()), note.page));
    let mut relied = own.chain(noted).chain(pending_note);
    relied.find(|(place, page)| passes_by_bytes_alone(world, *place, *page)).map(|found| found.0)
}

fn passes_by_bytes_alone(world: &World, place: Place, page: u16) -> bool {
    let image = &world.volume()[world.place(place)];
    sums(image) == Sums { words: false, bytes: true }
        && u16_at(image, 0) == page
        && image[2..4] == [0, 0]
}
