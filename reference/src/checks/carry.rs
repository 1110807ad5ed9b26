//! What carrying a volume over may not change, and that it comes to an end.

use crate::checks::carrying::{belongs, old_places};
use crate::checks::histories::ensure;
use crate::generators::world::{Event, Left, Outcome, Place, World};
use crate::script::cell::Call;
use crate::store::answer::{Answer, Refusal};
use crate::store::calls::inspect;
use crate::store::geometry::IMAGE_LEN;
use crate::store::heading::Heading;
use crate::store::state::State;

/// A live store before one of the three calls, performed or cut.
pub struct BeforeCarry {
    call: Call,
    heading: Heading,
    state: State,
    memory: Vec<u8>,
    /// The images that pass by the old sum only.
    left: Vec<Place>,
    /// What every inspection gave.
    looks: Vec<(Answer, Vec<u8>)>,
    /// Which places hold an image that passes there.
    passing: Vec<bool>,
}

impl BeforeCarry {
    pub fn take(world: &World, event: &Event) -> Option<BeforeCarry> {
        let call = *event.call()?;
        if !matches!(call, Call::Start | Call::Restamp | Call::Finish) {
            return None;
        }
        let state = world.script.driver.state;
        Some(BeforeCarry {
            call,
            heading: world.geometry.heading,
            state,
            memory: world.script.driver.memory().to_vec(),
            left: old_places(world, &state),
            looks: looks(world),
            passing: passing(world, &state),
        })
    }

    /// The answer is the only one that it can be; nothing that inspection shows has changed.
    pub fn check(&self, world: &World, event: &Event, outcome: &Outcome) -> Result<(), String> {
        if let Some(answer) = outcome.answer {
            let expected = self.expected();
            ensure(answer == expected, || format!("{:?}: {answer}, not {expected}", self.call))?;
            let driver = &world.script.driver;
            let untouched = driver.state == self.state && driver.memory() == self.memory;
            ensure(untouched, || format!("{:?} changed memory or state", self.call))?;
        }
        // A torn image fails, and so may be mended otherwise.
        let torn = matches!(event, Event::Cut { left: Left::Torn(_), .. });
        let same = torn || looks(world) == self.looks;
        ensure(same, || format!("{:?} changed an inspection", self.call))?;
        match outcome.answer {
            Some(Answer::Done) => self.check_done(world),
            _ => Ok(()),
        }
    }

    fn expected(&self) -> Answer {
        let own = match self.call {
            Call::Start => Heading::First,
            _ => Heading::Carrying,
        };
        match self.call {
            _ if self.heading != own => Answer::Refused(Refusal::Volume),
            Call::Restamp if self.left.is_empty() => Answer::Nothing,
            Call::Finish if !self.left.is_empty() => Answer::Refused(Refusal::ImagesLeft),
            _ => Answer::Done,
        }
    }

    fn check_done(&self, world: &World) -> Result<(), String> {
        let now = old_places(world, &self.state);
        let passes = passing(world, &self.state) == self.passing;
        let heading = world.geometry.heading;
        let right = match self.call {
            Call::Start => heading == Heading::Carrying,
            // The first of them is gone.
            Call::Restamp => heading == Heading::Carrying && now == self.left[1..] && passes,
            _ => heading == Heading::Second && passes,
        };
        ensure(right, || format!("{:?} left {now:?} of {:?}", self.call, self.left))
    }
}

/// Answers with numbers and bodies of all pages.
fn looks(world: &World) -> Vec<(Answer, Vec<u8>)> {
    let look = |page| {
        let mut buffer = [0; IMAGE_LEN];
        let answer = inspect(world.volume(), page, &mut buffer);
        (answer, buffer[4..252].to_vec())
    };
    (1..=world.geometry.pages as u16).map(look).collect()
}

fn passing(world: &World, index: &State) -> Vec<bool> {
    let passes = |place| {
        let image = &world.volume()[world.place(place)];
        world.item_sealed(image) && belongs(world, index, place, image)
    };
    world.places().into_iter().map(passes).collect()
}
