//! Volumes on their way from the first heading to the second, with images of every sort.

use crate::generators::arbitrary::{grow, revive, Episode};
use crate::generators::choose::Kind;
use crate::generators::edge_episodes::sound_edges;
use crate::generators::episodes::{look_at, probe, set_entry};
use crate::generators::history::{choose_carried, choose_geometry, one_history, Style};
use crate::generators::mutate::forge_image;
use crate::generators::rng::Rng;
use crate::generators::world::{Place, World};
use crate::script::cell::Call;
use crate::script::recorder::Script;
use crate::store::bytes::{put_u16, put_u32, seal};
use crate::store::geometry::IMAGE_LEN;
use crate::store::heading::{sealed_by_bytes, Heading, HEADING_LEN};
use crate::store::image::{blank_image, Image};

/// What is done before the calls that carry a volume over.
const STEPS: [(Episode, usize); 5] =
    [(put_images, 10), (give_slots, 3), (set_heading, 3), (sound_edges, 1), (wrong_memory, 1)];

/// Adds a history whose volume is carried over, or one that is stopped on the way and changed;
/// up to cell `end` or somewhat past it.
pub fn one_carrying(script: Script, end: usize, rng: &mut Rng) -> Script {
    let geometry = match rng.chance(700) {
        true => choose_carried(rng),
        false => choose_geometry(rng),
    };
    if rng.chance(450) {
        return one_history(script, geometry, end, rng);
    }
    let style = Style::choose(rng);
    let mut world = World::make(script, geometry, rng.byte());
    while world.script.len() < end {
        let events = rng.between(1, 25);
        grow(&mut world, &style, events, rng);
        revive(&mut world, rng);
        let before = world.script.driver.clone();
        match rng.chance(700) {
            true => carried_images(&mut world, rng),
            false => carry_calls(&mut world, rng),
        }
        world.script.restore(&before);
    }
    world.script
}

/// Images of every sort under the third heading, then calls that carry or look at them.
pub fn carried_images(world: &mut World, rng: &mut Rng) {
    if rng.chance(850) {
        world.script.poke(0..HEADING_LEN, &Heading::Carrying.bytes());
    }
    for _ in 0..rng.between(0, 3) {
        rng.weighted(&STEPS)(world, rng);
    }
    for _ in 0..rng.between(1, 6) {
        let kind = rng.pick(&[
            Kind::Restamp,
            Kind::Restamp,
            Kind::Restamp,
            Kind::Finish,
            Kind::Finish,
            Kind::Start,
            Kind::Load,
            Kind::Write,
            Kind::Backup,
        ]);
        probe(world, kind, rng);
    }
    look_at(world, rng.between(1, world.geometry.pages) as u16, rng);
}

fn set_heading(world: &mut World, rng: &mut Rng) {
    world.script.poke(0..HEADING_LEN, &rng.pick(&Heading::ALL).bytes());
}

/// A memory of no right length.
fn wrong_memory(world: &mut World, rng: &mut Rng) {
    world.script.resize_memory(rng.pick(&[0, 1_024, 1_279, 5_376]));
}

/// A slot that one page has in the state's index, or two.
fn give_slots(world: &mut World, rng: &mut Rng) {
    let slot = rng.between(0, world.geometry.slots) as u32;
    for _ in 0..rng.between(1, 2) {
        set_entry(world, rng.between(1, world.geometry.pages) as u16, 3, slot);
    }
}

fn put_images(world: &mut World, rng: &mut Rng) {
    for _ in 0..rng.between(1, 3) {
        let places = world.places();
        let place = places[rng.below(places.len())];
        put_image(world, place, rng);
    }
}

/// An image of the place's page or another, by the words, the bytes, both or neither.
fn put_image(world: &mut World, place: Place, rng: &mut Rng) {
    let state = &world.script.driver.state;
    let any = rng.between(1, world.geometry.pages) as u16;
    let page = match place {
        Place::Page(page) if rng.chance(800) => page,
        Place::Slot(slot) if rng.chance(600) => owner(world, slot).unwrap_or(any),
        _ => rng.pick(&[any, any, 0, world.geometry.pages as u16 + 1, 256 + any]),
    };
    let lsn = match (place, (1..=world.geometry.pages as u16).contains(&page)) {
        (Place::Page(_), true) => state.entry(page).newest_durable,
        (Place::Slot(_), true) => state.entry(page).backup_lsn,
        _ => state.durable,
    };
    let bytes = world.place(place);
    let mut image = world.volume()[bytes.clone()].to_vec();
    forge_image(&mut image, page, lsn, rng);
    match rng.below(6) {
        0..=2 => seal(&mut image),
        3 => Heading::Second.seal_image(&mut image),
        4 => image.copy_from_slice(&image_of_both_sums(page, lsn)),
        _ => {
            seal(&mut image);
            image[rng.pick(&[2, 3, 252, 100])] ^= 1;
        }
    }
    world.script.poke(bytes, &image);
}

fn owner(world: &World, slot: u16) -> Option<u16> {
    let state = &world.script.driver.state;
    let pages = 1..=world.geometry.pages as u16;
    pages.into_iter().find(|&page| u16::from(state.entry(page).backup_slot) == slot)
}

/// An image of a page that passes by both sums. With every high byte of a word zero the first
/// halves are the same; the second halves are if the low bytes, each weighed by the words
/// from it on, make up for the 126 bytes more.
pub fn image_of_both_sums(page: u16, lsn: u32) -> Image {
    let mut image = blank_image(page);
    put_u16(&mut image, 0, page & 0xFF);
    put_u32(&mut image, 4, lsn & 0xFF);
    let weight = |at: usize| 126 - at / 2;
    let weighed = |image: &[u8]| -> usize {
        (0..IMAGE_LEN - 4).step_by(2).map(|at| weight(at) * usize::from(image[at])).sum()
    };
    let mut rest = 65_535 - 126 - weighed(&image);
    for at in (8..IMAGE_LEN - 4).step_by(2) {
        let byte = (rest / weight(at)).min(255);
        image[at] = byte as u8;
        rest -= byte * weight(at);
    }
    seal(&mut image);
    debug_assert!(sealed_by_bytes(&image));
    image
}

/// One of the three calls under its own heading, sometimes with a memory or state that is wrong.
pub fn carry_calls(world: &mut World, rng: &mut Rng) {
    let (heading, call) = rng.pick(&[
        (Heading::First, Call::Start),
        (Heading::Carrying, Call::Restamp),
        (Heading::Carrying, Call::Finish),
    ]);
    world.script.poke(0..HEADING_LEN, &heading.bytes());
    if rng.chance(500) {
        put_images(world, rng);
    }
    match rng.below(4) {
        0 => wrong_memory(world, rng),
        1 => sound_edges(world, rng),
        _ => {}
    }
    world.script.call(call);
}
