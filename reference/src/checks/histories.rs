//! Runs histories through the store and the abstract log and looks for a contradiction.

use crate::checks::abstract_log::AbstractLog;
use crate::checks::carry::BeforeCarry;
use crate::checks::inspect::same;
use crate::checks::pair::check_pair;
use crate::checks::rehearse::check_rehearsal;
use crate::checks::ring::RingView;
use crate::checks::same::{check_left, held_pages, pushes_out, Held};
use crate::generators::history::{choose_carried, choose_geometry, choose_ring, Style};
use crate::generators::rng::Rng;
use crate::generators::world::{Event, Left, Outcome, World};
use crate::script::cell::Call;
use crate::script::recorder::Script;
use crate::store::answer::{Answer, Class, Refusal};
use crate::store::bytes::all_zero;
use crate::store::compare::Comparison;
use crate::store::geometry::{frame_count, frame_place};
use crate::store::image::CHECKSUM;
use crate::store::note::NoteKind;
use crate::store::restart::recover;
use crate::store::state::{IndexEntry, State};

/// Inspecting all pages is put off in large geometries: one event in so much work.
const WORK_PER_EVENT: usize = 2_000;

pub struct Checker {
    pub world: World,
    pub abstract_log: AbstractLog,
    events: Vec<Event>,
    /// Page and kind of every note stored, and what is added to their places.
    notes: Vec<(u16, NoteKind)>,
    notes_base: u32,
    damaged: bool,
    restamped: usize,
    finished: usize,
}

/// Runs the history of a seed; an error tells the contradiction and the events before it.
pub fn check_history(seed: u64) -> Result<Counts, String> {
    let mut rng = Rng::new(seed);
    let geometry = match rng.below(10) {
        0..=2 => choose_ring(&mut rng),
        3..=5 => choose_carried(&mut rng),
        _ => choose_geometry(&mut rng),
    };
    let style = Style::choose(&mut rng);
    let world = World::make(Script::default(), geometry, rng.byte());
    let mut checker = Checker::new(world);
    let rest = 1 + geometry.pages * (geometry.records + geometry.notes) / WORK_PER_EVENT;
    for at in 0..rng.between(20, 400) {
        let event = style.next(&checker.world, &mut rng);
        checker.step(event, at % rest == 0)?;
    }
    checker.inspect_all().map_err(|text| checker.report(&text))?;
    let mut counts = checker.counts();
    counts.pairs.extend(check_pair(&checker, &mut rng)?);
    counts.rehearsed = check_rehearsal(&mut rng)?.into();
    Ok(counts)
}

/// How much a history held.
#[derive(Default)]
pub struct Counts {
    pub events: usize,
    pub durable: usize,
    /// Histories in which record 1 has left the log, and pages beyond repair at their ends.
    pub turned: usize,
    pub lost: usize,
    /// Images restamped, and volumes carried over to the end.
    pub restamped: usize,
    pub finished: usize,
    /// How the logs of the history and of one that followed it compared.
    pub pairs: Vec<Comparison>,
    /// Lists of events whose real calls were all taken.
    pub rehearsed: usize,
}

impl Counts {
    pub fn add(&mut self, other: &Counts) {
        self.events += other.events;
        self.durable += other.durable;
        self.turned += other.turned;
        self.lost += other.lost;
        self.restamped += other.restamped;
        self.finished += other.finished;
        self.pairs.extend(&other.pairs);
        self.rehearsed += other.rehearsed;
    }
}

impl Checker {
    pub fn new(world: World) -> Checker {
        Checker {
            world,
            abstract_log: AbstractLog::default(),
            events: Vec::new(),
            notes: Vec::new(),
            notes_base: 0,
            damaged: false,
            restamped: 0,
            finished: 0,
        }
    }

    pub fn step(&mut self, event: Event, inspect_all: bool) -> Result<(), String> {
        let pending_before = self.abstract_log.pending.len();
        self.events.push(event.clone());
        let pending_note = self.world.script.driver.state.pending_note;
        let held = held_pages(&self.world);
        let carry = BeforeCarry::take(&self.world, &event);
        let outcome = self.world.apply(&event);
        self.feed(&event, &outcome);
        let noted = match event {
            Event::Call(Call::Note) => outcome.answer == Some(Answer::Done),
            Event::Cut { within: Some(Call::Note), .. } => outcome.left_new,
            _ => false,
        };
        if noted {
            self.notes.extend(pending_note.map(|note| (note.page, note.kind)));
        }
        self.check_answer(&event, &outcome, pending_before)
            .and_then(|()| self.check_live())
            .and_then(|()| self.check_left(&event, &outcome, &held))
            .and_then(|()| {
                carry.map_or(Ok(()), |before| before.check(&self.world, &event, &outcome))
            })
            .and_then(|()| if inspect_all { self.inspect_all() } else { Ok(()) })
            .map_err(|text| self.report(&text))
    }

    fn feed(&mut self, event: &Event, outcome: &Outcome) {
        if outcome.left_new || outcome.answer == Some(Answer::Done) {
            self.restamped += usize::from(event.call() == Some(&Call::Restamp));
            self.finished += usize::from(event.call() == Some(&Call::Finish));
        }
        match event {
            Event::Call(call) => {
                let refused = outcome.answer.is_some_and(|answer| answer.is_refused());
                self.abstract_log.call(call, refused);
            }
            Event::Cut { within, left } => {
                self.abstract_log.cut(within.as_ref(), outcome.left_new);
                // A backup may be lost by it as by damage.
                let torn = matches!((within, left), (Some(Call::Restamp), Left::Torn(_)));
                self.damaged = self.damaged || torn;
            }
            Event::Lend { .. } => {}
            Event::Damage { .. } => self.damaged = true,
            Event::Lift(lift) => {
                self.abstract_log.cut(None, false);
                self.abstract_log.base += lift.records;
                self.notes_base += lift.notes;
            }
        }
    }

    /// Answers that no history may give, and the replay that a Load must give.
    fn check_answer(&self, event: &Event, outcome: &Outcome, pending: usize) -> Result<(), String> {
        let (Event::Call(call), Some(answer)) = (event, outcome.answer) else {
            return Ok(());
        };
        let memory_fits = frame_count(self.world.script.driver.memory_len).is_some();
        let broken = match answer {
            Answer::Refused(Refusal::Lent) => *call != Call::Restart || memory_fits,
            // Each of these has its own heading.
            Answer::Refused(Refusal::Volume) => {
                !matches!(call, Call::Start | Call::Restamp | Call::Finish)
            }
            Answer::Refused(refusal) => matches!(refusal.number(), 17..=19),
            _ => false,
        };
        ensure(!broken, || format!("a history made {call:?} answer {answer}"))?;
        if *call == Call::Force {
            let nothing = answer == Answer::Nothing;
            ensure(nothing == (pending == 0), || format!("{answer} with {pending} pending"))?;
        }
        if let (Call::Load { page, .. }, Answer::Refused(Refusal::BelowRun)) = (call, answer) {
            self.ring(&self.noted()?).check_below(*page, &answer)?;
        }
        match (call, answer) {
            (Call::Load { page, frame }, Answer::Rebuilt(rebuild)) => {
                let driver = &self.world.script.driver;
                let image = &driver.memory[frame_place((*frame).into())];
                same(image, self.abstract_log.replay(*page), "Load", *page)?;
                self.check_rebuild(*page, &rebuild, image)?;
                let dirty = driver.state.frame((*frame).into()).dirty;
                ensure(dirty == (rebuild.class != Class::Good), || format!("{answer}: {dirty}"))
            }
            _ => Ok(()),
        }
    }

    fn check_left(&self, event: &Event, outcome: &Outcome, held: &[Held]) -> Result<(), String> {
        let done = outcome.answer.is_some_and(|answer| !answer.is_refused());
        match event {
            Event::Call(call) if done && pushes_out(call) => {
                check_left(&self.ring(&self.noted()?), held)
            }
            _ => Ok(()),
        }
    }

    /// A sound state with the abstract log's counts; frames that hold durable and pending changes.
    fn check_live(&self) -> Result<(), String> {
        if !self.world.live {
            return Ok(());
        }
        let driver = &self.world.script.driver;
        let state = &driver.state;
        let sound = state.is_sound(&self.world.geometry, self.world.frames());
        ensure(sound, || format!("a history came to an unsound state: {state:?}"))?;
        let counts = (self.abstract_log.last(), self.abstract_log.pending.len() as u32);
        ensure((state.durable, state.pending) == counts, || {
            format!("durable {} pending {}, abstract log {counts:?}", state.durable, state.pending)
        })?;
        self.check_index(state)?;
        for (at, frame) in state.frames.iter().enumerate().filter(|(_, frame)| frame.page != 0) {
            let image = &driver.memory[frame_place(at + 1)];
            same(image, self.abstract_log.replay_with_pending(frame.page), "frame", frame.page)?;
            ensure(all_zero(&image[CHECKSUM]), || "checksum bytes in a frame".into())?;
        }
        Ok(())
    }

    /// The index is what the volume gives, but for pending records.
    fn check_index(&self, state: &State) -> Result<(), String> {
        let noted = self.noted()?;
        let durable_part = |state: &State| {
            let entries = state.index.map(|entry| IndexEntry { newest: 0, ..entry });
            (state.durable, state.notes, entries)
        };
        ensure(durable_part(state) == durable_part(&noted), || {
            format!("the volume gives {noted:?}, the state is {state:?}")
        })
    }

    pub fn ring<'a>(&'a self, noted: &'a State) -> RingView<'a> {
        RingView { world: &self.world, abstract_log: &self.abstract_log, noted }
    }

    /// What log and notes have lost, and the proviso where nothing was damaged.
    pub fn check_ring(&self, noted: &State) -> Result<(), String> {
        let ring = self.ring(noted);
        ring.check_spare()?;
        ring.check_notes(&self.notes, self.notes_base)?;
        let pages = 1..=self.world.geometry.pages as u16;
        let safe = !ring.gone() || pages.into_iter().all(|page| ring.provided(page));
        ensure(safe || self.damaged, || "a history without damage fails the proviso".into())
    }

    /// What a Restart would give now.
    pub fn noted(&self) -> Result<State, String> {
        recover(self.world.volume(), &self.world.geometry)
            .map_err(|refusal| format!("a history's volume breaks the restart rule: {refusal:?}"))
    }

    fn counts(&self) -> Counts {
        let noted = self.noted().unwrap_or(State::zero());
        let ring = self.ring(&noted);
        let pages = 1..=self.world.geometry.pages as u16;
        Counts {
            events: self.events.len(),
            durable: self.abstract_log.durable.len(),
            turned: ring.gone().into(),
            lost: pages.filter(|&page| ring.beyond_repair(page)).count(),
            restamped: self.restamped,
            finished: self.finished,
            ..Counts::default()
        }
    }

    pub fn report(&self, text: &str) -> String {
        let events: Vec<String> =
            self.events.iter().enumerate().map(|(at, event)| format!("{at:4} {event:?}")).collect();
        format!("{text}\n{:?}\n{}", self.world.geometry, events.join("\n"))
    }
}

pub fn ensure(holds: bool, text: impl FnOnce() -> String) -> Result<(), String> {
    if holds {
        Ok(())
    } else {
        Err(text())
    }
}
