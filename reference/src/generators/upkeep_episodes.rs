//! Scripts for upkeep: histories that follow its advice, and others in which it is only asked.

use crate::generators::choose::Kind;
use crate::generators::damage::choose_damage;
use crate::generators::history::{
    choose_carried, choose_geometry, choose_ring, chooser, cut, Style,
};
use crate::generators::rng::Rng;
use crate::generators::world::{Event, Left, World};
use crate::script::cell::{Call, Cell, MAX_CELLS};
use crate::script::recorder::Script;
use crate::store::answer::{Answer, Refusal};
use crate::store::geometry::{memory_len_for, Geometry};
use crate::store::heading::Heading;
use crate::store::upkeep::Advice;

const USER: &[Kind] = &[
    Kind::Begin,
    Kind::Load,
    Kind::Change,
    Kind::Change,
    Kind::Change,
    Kind::Force,
    Kind::Write,
    Kind::Backup,
    Kind::Note,
    Kind::Release,
];

/// A script in which upkeep is asked.
pub fn upkeep_script(rng: &mut Rng, cells: usize) -> Vec<Cell> {
    let cells = cells.min(MAX_CELLS);
    let mut script = Script::default();
    while script.len() < cells {
        let end = cells.min(script.len() + rng.between(100, 500));
        script = match rng.below(2) {
            0 => asked(script, end, rng),
            _ => Disciplined::choose(script, rng).play(end, rng).script,
        };
    }
    script.cells.truncate(cells);
    script.cells
}

/// Any history, with questions between its events.
fn asked(script: Script, end: usize, rng: &mut Rng) -> Script {
    let style = Style::choose(rng);
    let geometry = match rng.below(8) {
        0 => choose_geometry(rng),
        1 => choose_carried(rng),
        _ => choose_ring(rng),
    };
    let mut world = World::make(script, geometry, rng.byte());
    if rng.chance(200) {
        world.script.sizes(geometry.volume_len() - 1, 1_280, 256);
        world.script.call(Call::Advise { frame: 1 });
        world.script.sizes(geometry.volume_len(), 1_280, 256);
    }
    while world.script.len() < end {
        let event = style.next(&world, rng);
        world.apply(&event);
        let frame = match rng.chance(900) {
            true => rng.between(1, world.frames().max(1)),
            false => rng.pick(&[0, world.frames() + 1, 17, 65_535]),
        };
        world.script.call(Call::Advise { frame: frame as u16 });
    }
    world.script
}

/// A store that upkeep looks after, and how its user and the power behave.
struct Disciplined {
    world: World,
    frames: usize,
    reserved: u16,
    /// Whether the user writes pages, and how many cuts upkeep bears between two answers Idle.
    writes: bool,
    cap: usize,
    cut: usize,
    damage: usize,
    /// Cuts, and calls of upkeep's, since it was last idle.
    cuts: usize,
    calls: usize,
}

impl Disciplined {
    fn choose(script: Script, rng: &mut Rng) -> Disciplined {
        let (pages, writes) = (rng.between(1, 3), rng.chance(700));
        let cap = rng.between(0, 2);
        let written = if writes { pages } else { 0 };
        let half = if writes { written + cap } else { 1 };
        let counts = [
            pages,
            pages + 1 + rng.between(0, 1),
            2 * half + rng.between(0, 3),
            pages + written + 2 + rng.between(0, 3),
        ];
        let geometry = Geometry::new(Heading::Second, counts.map(|count| count as u32))
            .expect("the counts are in range");
        let frames = rng.between(2, 3);
        Disciplined {
            world: World::make(script, geometry, rng.byte()),
            frames,
            reserved: rng.between(1, frames) as u16,
            writes,
            cap,
            cut: rng.pick(&[0, 10, 60]),
            damage: rng.pick(&[0, 0, 5]),
            cuts: 0,
            calls: 0,
        }
    }

    /// Plays on up to a cell, or until a page is lost.
    fn play(mut self, end: usize, rng: &mut Rng) -> World {
        let memory_len = memory_len_for(self.frames);
        self.world.apply(&Event::Lend { memory_len, byte: rng.byte() });
        while self.world.script.len() < end {
            if !self.world.live {
                let answer = self.world.apply(&Event::Call(Call::Restart)).answer;
                assert_eq!(answer, Some(Answer::Done), "a legal history restarts");
                continue;
            }
            if rng.chance(self.damage) {
                let event = choose_damage(&self.world, rng);
                self.world.apply(&event);
            }
            match self.world.script.call(Call::Advise { frame: self.reserved }) {
                Answer::Advised(Advice::Make(call)) => self.renew(call, rng),
                Answer::Advised(Advice::Idle) => self.use_store(rng),
                Answer::Advised(Advice::Stuck(page)) => {
                    self.check_lost(page);
                    return self.world;
                }
                answer => panic!("upkeep answers {answer}"),
            }
        }
        self.world
    }

    /// Makes the call that upkeep advises, or is cut in it while that may be.
    fn renew(&mut self, call: Call, rng: &mut Rng) {
        self.calls += 1;
        let geometry = &self.world.geometry;
        let written = if self.writes { geometry.pages } else { 0 };
        let bound = (5 * written + 3 * geometry.pages + 1) * (self.cuts + 1);
        assert!(self.calls <= bound, "upkeep does not end: {} calls", self.calls);
        if rng.chance(self.cut) && (self.cuts < self.cap || !self.writes) {
            self.cuts += 1;
            let event = cut(&self.world, call, rng);
            self.world.apply(&event);
            return;
        }
        let answer = self.world.apply(&Event::Call(call)).answer;
        let done = answer.is_some_and(|answer| !answer.is_refused() && answer != Answer::Nothing);
        assert!(done, "upkeep's call {call:?} answers {answer:?}");
    }

    /// A call of the user's, after Idle.
    fn use_store(&mut self, rng: &mut Rng) {
        (self.cuts, self.calls) = (0, 0);
        let kind = rng.pick(USER);
        let call = chooser(&self.world).sensible(kind, rng);
        if matches!(call, Call::Write { .. }) && !self.writes {
            return;
        }
        if rng.chance(self.cut) && (self.cap > 0 || !self.writes) {
            self.cuts = 1;
            let event = match rng.chance(500) {
                true => cut(&self.world, call, rng),
                false => Event::Cut { within: None, left: Left::Old },
            };
            self.world.apply(&event);
            return;
        }
        if let Some(Answer::Refused(refusal)) = self.world.apply(&Event::Call(call)).answer {
            let room = (10..=15).contains(&refusal.number());
            assert!(!room, "after Idle {call:?} is refused {}", refusal.number());
        }
    }

    /// Stuck is for a page in no frame whose Load is 23, and for nothing else.
    fn check_lost(&self, page: u16) {
        let load = Call::Load { page, frame: self.reserved };
        let state = &self.world.script.driver.state;
        assert_eq!(state.frame_of(page), None, "stuck at a page in a frame");
        let answer = self.world.script.driver.trial().call(&load);
        assert_eq!(answer, Answer::Refused(Refusal::BelowRun), "stuck at a page that loads");
    }
}

#[cfg(test)]
mod tests {
    use super::*;

    #[test]
    fn disciplined_histories_keep_their_promise() {
        let mut rng = Rng::new(14);
        for _ in 0..400 {
            Disciplined::choose(Script::default(), &mut rng).play(600, &mut rng);
        }
    }
}
