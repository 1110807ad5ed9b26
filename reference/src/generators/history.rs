//! Generator of histories: calls, cuts, torn writes, damage and live restarts.

use crate::checks::carrying::in_the_way_of_start;
use crate::generators::choose::{Chooser, Kind};
use crate::generators::damage::{choose_damage, torn};
use crate::generators::lift::Lift;
use crate::generators::renewal::renewal_call;
use crate::generators::rng::Rng;
use crate::generators::world::{Event, Left, Place, World};
use crate::script::cell::{Call, Cell, MAX_CELLS};
use crate::script::recorder::Script;
use crate::store::answer::Answer;
use crate::store::geometry::{memory_len_for, Geometry, IMAGE_LEN, MAX_FRAMES};
use crate::store::heading::{Heading, HEADING_LEN};

/// Tries for a call that does something.
const TRIES: usize = 6;

/// How often, per mille, and by which weights a history does things.
pub struct Style {
    cut: usize,
    damage: usize,
    silly: usize,
    bad_memory: usize,
    /// Calls of someone who keeps a ring turning.
    keep: usize,
    lift: usize,
    /// Calls that carry a volume over, while it has not the second heading.
    carry: usize,
    weights: Vec<(Kind, usize)>,
}

impl Style {
    pub fn choose(rng: &mut Rng) -> Style {
        Style {
            cut: rng.pick(&[0, 5, 20, 60]),
            damage: rng.pick(&[0, 20, 60, 120]),
            silly: rng.pick(&[0, 20, 100]),
            bad_memory: 100,
            keep: rng.pick(&[0, 400, 900]),
            lift: rng.pick(&[0, 0, 3]),
            carry: rng.pick(&[0, 15, 60, 150]),
            weights: vec![
                (Kind::Begin, rng.pick(&[6, 15])),
                (Kind::Load, rng.pick(&[8, 20])),
                (Kind::Change, rng.pick(&[10, 25])),
                (Kind::Force, rng.pick(&[1, 12, 25, 40])),
                (Kind::Write, rng.pick(&[3, 15])),
                (Kind::Backup, rng.pick(&[1, 6, 12])),
                (Kind::Note, rng.pick(&[3, 20])),
                (Kind::Restart, rng.pick(&[0, 1, 3])),
                (Kind::Release, rng.pick(&[0, 3, 10])),
            ],
        }
    }

    /// Events that add no change: between those of a store that follows another.
    pub fn quiet(rng: &mut Rng) -> Style {
        let changes = [Kind::Begin, Kind::Change];
        let mut style = Style { silly: 0, keep: 0, lift: 0, ..Style::choose(rng) };
        style.weights.retain(|(kind, _)| !changes.contains(kind));
        style
    }

    /// The next event of a history that has come to `world`.
    pub fn next(&self, world: &World, rng: &mut Rng) -> Event {
        if rng.chance(self.damage) {
            return choose_damage(world, rng);
        }
        if rng.chance(self.lift) {
            if let Some(lift) = Lift::choose(world.volume(), &world.geometry, rng) {
                return Event::Lift(lift);
            }
        }
        if !world.live {
            return self.revive(world, rng);
        }
        let call = self.call(world, rng);
        if let Some(place) = start_in_the_way(world, &call) {
            return Event::Damage { place, bytes: vec![0; IMAGE_LEN] };
        }
        match rng.chance(self.cut) {
            true => cut(world, call, rng),
            false => Event::Call(call),
        }
    }

    /// Towards a Restart, with any memory lent to it.
    fn revive(&self, world: &World, rng: &mut Rng) -> Event {
        if rng.chance(self.cut) {
            return Event::Cut { within: None, left: Left::Old };
        }
        if rng.chance(if world.frames() == 0 { 700 } else { 500 }) {
            let memory_len = match rng.chance(self.bad_memory) {
                true => rng.pick(&[0, 1_024, 1_279, 1_281, memory_len_for(MAX_FRAMES + 1)]),
                false => memory_len_for(frames(rng)),
            };
            return Event::Lend { memory_len, byte: rng.byte() };
        }
        Event::Call(Call::Restart)
    }

    /// The next step of carrying the volume over, or any of the three; None once it is done.
    fn carry_call(&self, world: &World, rng: &mut Rng) -> Option<Call> {
        let steps: &[Call] = match world.geometry.heading {
            _ if rng.chance(self.silly) => &[Call::Start, Call::Restamp, Call::Finish],
            // Late enough for some images to be there.
            Heading::First if rng.chance(750) => return None,
            Heading::First => &[Call::Start],
            Heading::Carrying => &[Call::Restamp, Call::Restamp, Call::Restamp, Call::Finish],
            Heading::Second => return None,
        };
        Some(rng.pick(steps))
    }

    /// A call; one that does nothing is mostly given up for another.
    fn call(&self, world: &World, rng: &mut Rng) -> Call {
        if world.geometry.is_ring() && rng.chance(self.keep) {
            return renewal_call(world, rng);
        }
        if rng.chance(self.carry) {
            if let Some(call) = self.carry_call(world, rng) {
                return call;
            }
        }
        let chooser = chooser(world);
        for _ in 0..TRIES {
            let kind = rng.weighted(&self.weights);
            if rng.chance(self.silly) {
                return chooser.silly(kind, rng);
            }
            let call = chooser.sensible(kind, rng);
            let idle = matches!(
                world.script.driver.trial().call(&call),
                Answer::Refused(_) | Answer::Nothing
            );
            if !idle || rng.chance(150) {
                return call;
            }
        }
        chooser.sensible(rng.weighted(&self.weights), rng)
    }
}

/// What must first be damaged, where the call would start to carry the volume over.
fn start_in_the_way(world: &World, call: &Call) -> Option<Place> {
    let starts = *call == Call::Start && world.geometry.heading == Heading::First;
    starts.then(|| in_the_way_of_start(world)).flatten()
}

/// A cut between calls or within this one.
pub fn cut(world: &World, call: Call, rng: &mut Rng) -> Event {
    if rng.chance(150) {
        return Event::Cut { within: None, left: Left::Old };
    }
    let left = match (rng.below(3), world.item_of(&call), world.item_after(&call)) {
        (0, Some(_), _) => Left::New,
        // A heading is stored whole or not at all.
        (1, Some(item), Some(new)) if item.len() > HEADING_LEN => {
            let sealed = |bytes: &[u8]| world.item_sealed(bytes);
            Left::Torn(torn(&world.volume()[item], &new, sealed, rng))
        }
        _ => Left::Old,
    };
    Event::Cut { within: Some(call), left }
}

pub fn chooser(world: &World) -> Chooser<'_> {
    Chooser { state: &world.script.driver.state, geometry: &world.geometry, frames: world.frames() }
}

fn frames(rng: &mut Rng) -> usize {
    match rng.below(6) {
        0 => rng.between(1, MAX_FRAMES),
        _ => rng.between(1, 4),
    }
}

/// A ring that soon turns: few slots, and mostly enough backups and notes to go on.
pub fn choose_ring(rng: &mut Rng) -> Geometry {
    let pages = rng.between(1, 3);
    let slots = pages + rng.between(0, 3);
    let notes = match rng.below(8) {
        0 => rng.between(0, 2),
        _ => 2 * pages + rng.between(0, 5),
    };
    let counts = [pages, slots, rng.between(2, 9), notes].map(|count| count as u32);
    Geometry::new(Heading::Second, counts).expect("the counts are in range")
}

/// Under the first heading, with counts that soon turn once the volume is carried over.
pub fn choose_carried(rng: &mut Rng) -> Geometry {
    let Geometry { pages, slots, records, notes, .. } = choose_ring(rng);
    let records = if rng.chance(150) { 1 } else { records + rng.between(0, 6) };
    let counts = [pages, slots, records, notes].map(|count| count as u32);
    Geometry::new(Heading::First, counts).expect("the counts are in range")
}

/// Mostly a small geometry, sometimes any, rarely the full one.
pub fn choose_geometry(rng: &mut Rng) -> Geometry {
    let counts = match rng.below(40) {
        0 => [64, 128, 1024, 1024],
        1..=3 => {
            [rng.between(1, 64), rng.between(0, 128), rng.between(1, 1024), rng.between(0, 1024)]
        }
        4..=9 => [rng.between(1, 3), rng.between(0, 2), rng.between(1, 6), rng.between(0, 3)],
        10..=15 => [rng.between(1, 5), rng.between(0, 5), rng.between(8, 40), rng.between(0, 15)],
        _ => [rng.between(1, 5), rng.between(1, 5), rng.between(20, 200), rng.between(10, 100)],
    };
    let heading = rng.pick(&Heading::MADE);
    Geometry::new(heading, counts.map(|count| count as u32)).expect("the counts are in range")
}

/// A script of one history or several, with inspections in between.
pub fn history_script(rng: &mut Rng, cells: usize) -> Vec<Cell> {
    script_of_histories(rng, cells, choose_geometry)
}

/// The same on small rings.
pub fn ring_script(rng: &mut Rng, cells: usize) -> Vec<Cell> {
    script_of_histories(rng, cells, choose_ring)
}

fn script_of_histories(rng: &mut Rng, cells: usize, choose: fn(&mut Rng) -> Geometry) -> Vec<Cell> {
    let cells = cells.min(MAX_CELLS);
    let mut script = Script::default();
    while script.len() < cells {
        let geometry = choose(rng);
        let end = cells.min(script.len() + rng.between(60, 600));
        script = one_history(script, geometry, end, rng);
    }
    script.cells.truncate(cells);
    script.cells
}

/// Adds one history up to cell `end`, and the inspection of all its pages within that.
pub fn one_history(script: Script, geometry: Geometry, end: usize, rng: &mut Rng) -> Script {
    let style = Style::choose(rng);
    let mut world = World::make(script, geometry, rng.byte());
    while world.script.len() + geometry.pages < end {
        let event = style.next(&world, rng);
        world.apply(&event);
        if rng.chance(60) {
            let call = match rng.below(12) {
                0 | 1 => chooser(&world).silly(Kind::Inspect, rng),
                2 => Call::Forecast,
                3 => Call::Length,
                _ => Call::Inspect { page: rng.between(1, geometry.pages) as u16 },
            };
            world.script.call(call);
        }
    }
    for page in 1..=geometry.pages as u16 {
        world.script.call(Call::Inspect { page });
    }
    world.script
}
