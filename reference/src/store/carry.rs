//! Carrying a volume from the first heading to the second while it is in use.

use crate::store::answer::{Answer, Refusal};
use crate::store::bytes::u16_at;
use crate::store::calls::{ensure, Next};
use crate::store::geometry::Geometry;
use crate::store::heading::{sealed_by_bytes, sealed_by_words, Heading};
use crate::store::image::image_page;
use crate::store::state::State;
use std::ops::Range;

impl State {
    /// Turns the first heading to the one of a volume that is carried over.
    pub fn start(self, volume: &mut [u8], memory: &[u8]) -> (State, Answer) {
        self.settle(self.try_start(volume, memory))
    }

    fn try_start(self, volume: &mut [u8], memory: &[u8]) -> Next {
        self.admit_under(Heading::First, volume, memory)?;
        set_heading(volume, Heading::Carrying);
        Ok((self, Answer::Done))
    }

    /// Gives the byte sum to the first image that passes by the word sum only.
    pub fn restamp(self, volume: &mut [u8], memory: &[u8]) -> (State, Answer) {
        self.settle(self.try_restamp(volume, memory))
    }

    fn try_restamp(self, volume: &mut [u8], memory: &[u8]) -> Next {
        let geometry = self.admit_under(Heading::Carrying, volume, memory)?;
        let Some(place) = self.first_old(volume, &geometry) else {
            return Ok((self, Answer::Nothing));
        };
        Heading::Second.seal_image(&mut volume[place]);
        Ok((self, Answer::Done))
    }

    /// Sets the second heading, once no such image is left.
    pub fn finish(self, volume: &mut [u8], memory: &[u8]) -> (State, Answer) {
        self.settle(self.try_finish(volume, memory))
    }

    fn try_finish(self, volume: &mut [u8], memory: &[u8]) -> Next {
        let geometry = self.admit_under(Heading::Carrying, volume, memory)?;
        ensure(self.first_old(volume, &geometry).is_none(), Refusal::ImagesLeft)?;
        set_heading(volume, Heading::Second);
        Ok((self, Answer::Done))
    }

    /// Refusals 1, also for another heading, and 2.
    fn admit_under(
        &self,
        heading: Heading,
        volume: &[u8],
        memory: &[u8],
    ) -> Result<Geometry, Refusal> {
        ensure(Heading::read(volume) == Some(heading), Refusal::Volume)?;
        Ok(self.admit(volume, memory)?.0)
    }

    /// The first image, pages before slots, that passes in its place by the word sum only.
    fn first_old(&self, volume: &[u8], geometry: &Geometry) -> Option<Range<usize>> {
        let is_old = |place: &Range<usize>| {
            let image = &volume[place.clone()];
            sealed_by_words(image) && !sealed_by_bytes(image) && u16_at(image, 2) == 0
        };
        let page_of = |place: &Range<usize>| image_page(&volume[place.clone()]);
        let pages = (1..=geometry.pages).filter_map(|page| {
            let place = geometry.page(page);
            (is_old(&place) && usize::from(page_of(&place)) == page).then_some(place)
        });
        let slots = (1..=geometry.slots).filter_map(|slot| {
            let place = geometry.slot(slot);
            let takes = is_old(&place) && self.slot_takes(slot as u8, page_of(&place), geometry);
            takes.then_some(place)
        });
        pages.chain(slots).next()
    }

    /// Whether a slot takes an image of this page: one that the index gives it to, or any page
    /// if the slot is not in the index.
    fn slot_takes(&self, slot: u8, page: u16, geometry: &Geometry) -> bool {
        let in_range = (1..=geometry.pages).contains(&usize::from(page));
        in_range && (self.entry(page).backup_slot == slot || !self.slot_in_index(slot))
    }
}

fn set_heading(volume: &mut [u8], heading: Heading) {
    let bytes = heading.bytes();
    volume[..bytes.len()].copy_from_slice(&bytes);
}
