//! Damage and torn writes, as far as document 01 allows them.

use crate::checks::carrying::belongs;
use crate::generators::rng::Rng;
use crate::generators::world::{Event, Place, World};
use crate::store::geometry::IMAGE_LEN;
use crate::store::heading::Heading;
use crate::store::image::set_image_lsn;
use crate::store::restart::recover;
use crate::store::state::State;

/// Tries of a random spoiling before zeros, which never pass, are taken.
const TRIES: usize = 8;

/// A page or slot image replaced by one that does not pass, or by one stored there earlier.
pub fn choose_damage(world: &World, rng: &mut Rng) -> Event {
    let place = choose_place(world, rng);
    let noted = recover(world.volume(), &world.geometry).unwrap_or(State::zero());
    let earlier: Vec<&Vec<u8>> =
        world.stored.iter().filter(|(at, _)| *at == place).map(|(_, image)| image).collect();
    let bytes = match earlier.is_empty() || rng.chance(400) {
        true => failing_image(world, &noted, place, rng),
        false => rng.pick(&earlier).clone(),
    };
    Event::Damage { place, bytes }
}

/// Any place, or often one in which an image was stored.
fn choose_place(world: &World, rng: &mut Rng) -> Place {
    let geometry = &world.geometry;
    if !world.stored.is_empty() && rng.chance(500) {
        return world.stored[rng.below(world.stored.len())].0;
    }
    match geometry.slots != 0 && rng.chance(400) {
        true => Place::Slot(rng.between(1, geometry.slots) as u16),
        false => Place::Page(rng.between(1, geometry.pages) as u16),
    }
}

fn failing_image(world: &World, noted: &State, place: Place, rng: &mut Rng) -> Vec<u8> {
    for _ in 0..TRIES {
        let bytes = spoiled(world, noted, place, rng);
        if !passes_in(world, noted, place, &bytes) {
            return bytes;
        }
    }
    vec![0; IMAGE_LEN]
}

/// Whether an image passes in a place, the index being what the volume's notes give.
fn passes_in(world: &World, noted: &State, place: Place, image: &[u8]) -> bool {
    world.item_sealed(image) && belongs(world, noted, place, image)
}

/// The place's image with something wrong; a sealed image is among the choices.
fn spoiled(world: &World, noted: &State, place: Place, rng: &mut Rng) -> Vec<u8> {
    let mut bytes = world.volume()[world.place(place)].to_vec();
    match rng.below(6) {
        0 => bytes.fill(0),
        1 => rng.fill(&mut bytes),
        2 => {
            let at = rng.below(IMAGE_LEN);
            bytes[at] ^= rng.byte() | 1;
        }
        3 => {
            bytes[2 + rng.below(2)] = rng.byte() | 1;
            rng.pick(&Heading::MADE).seal_image(&mut bytes);
        }
        4 => {
            bytes[0] = rng.pick(&[0, world.geometry.pages as u8 + 1, bytes[0].wrapping_add(1)]);
            rng.pick(&Heading::MADE).seal_image(&mut bytes);
        }
        // A forged image of any page, at a number near those given.
        _ => {
            rng.fill(&mut bytes);
            bytes[..8].fill(0);
            bytes[0] = rng.between(1, world.geometry.pages) as u8;
            set_image_lsn(&mut bytes, rng.between(1, noted.durable as usize + 2) as u32);
            rng.pick(&Heading::MADE).seal_image(&mut bytes);
        }
    }
    bytes
}

/// Bytes that a torn write leaves: they fail their checksum.
pub fn torn(old: &[u8], new: &[u8], sealed: impl Fn(&[u8]) -> bool, rng: &mut Rng) -> Vec<u8> {
    let mut bytes = new.to_vec();
    match rng.below(4) {
        0 => {
            let left = rng.below(new.len());
            bytes[left..].copy_from_slice(&old[left..]);
        }
        1 => {
            let left = rng.below(new.len());
            bytes[..left].copy_from_slice(&old[..left]);
        }
        2 => rng.fill(&mut bytes),
        _ => bytes.fill(0),
    }
    if sealed(&bytes) {
        let at = rng.below(bytes.len());
        bytes[at] ^= 1;
    }
    if sealed(&bytes) {
        bytes.fill(0);
    }
    bytes
}
