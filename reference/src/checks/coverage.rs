//! Counting the answers of a script: refusals, classes and starts.

use crate::checks::coverage_carry::{carry_cases, carry_targets};
use crate::checks::coverage_reading::{cases, mirror_targets, reading_targets, rehearse_targets};
use crate::checks::coverage_table::{is_reading, name_of, ROWS, UPKEEP_ROWS};
use crate::checks::fault::Fault;
use crate::script::cell::{decode, Call, Cell, Op};
use crate::script::driver::Driver;
use crate::store::answer::{Answer, Refusal};
use crate::store::geometry::{frame_count, Geometry};
use crate::store::heading::Heading;
use crate::store::restart::recover;
use crate::store::sound::clause_names;
use crate::store::state::State;
use crate::store::upkeep::RULES;
use crate::store::walk::rebuild;
use std::collections::{BTreeMap, BTreeSet};

/// Stands for the call where a hit is the cause of a refusal.
pub const CAUSE: &str = "cause";

/// Causes that only a ring has: runs, lost starts, numbers to the largest.
const RING_ONLY: &[&str] = &[
    "LogTorn",
    "LogNext",
    "LogStart",
    "PreviousBelow",
    "NotesTorn",
    "NotesNext",
    "NotesStart",
    "WrittenAbove",
    "BelowRun",
    "LogNumbers",
    "LogPending",
    "LogNeeded",
    "NotesNumbers",
    "NotesNeeded",
    "no pending note at N 0",
];

/// Faults that a ring can't have.
const STRAIGHT_ONLY: &[&str] = &["LogEnd", "NotesEnd"];

/// A call's name and an answer without its count, or `CAUSE` and a cause.
pub type Hit = (&'static str, String);

/// An answer as it is counted: a refusal with its number, else the words without numbers
/// (but no pages are told from some).
pub fn label(answer: &str) -> String {
    let is_number = |word: &&str| word.starts_with(|letter: char| letter.is_ascii_digit());
    match answer.starts_with("REFUSED") || answer == "PAGES 0" {
        true => answer.to_string(),
        false => answer.split(' ').filter(|word| !is_number(word)).collect::<Vec<_>>().join(" "),
    }
}

/// Every call with every answer that it can give, on rings or on volumes that don't turn.
pub fn targets(ring: bool) -> BTreeSet<Hit> {
    let mut all = BTreeSet::new();
    for row in ROWS {
        all.extend(row.hits().filter(|(_, answer)| ring || answer != "REFUSED 23"));
    }
    all
}

/// Every cause of a refusal that is looked for, on rings or on volumes that don't turn. Each
/// clause of soundness is looked for on one of the two only.
pub fn causes(ring: bool) -> BTreeSet<Hit> {
    let faults = Fault::ALL.iter().map(|fault| format!("{fault:?}"));
    let clauses = clause_names().map(String::from);
    let wanted = |cause: &String, is_clause: bool| match ring {
        true if is_clause => RING_ONLY.contains(&cause.as_str()),
        true => !STRAIGHT_ONLY.contains(&cause.as_str()),
        false => !RING_ONLY.contains(&cause.as_str()),
    };
    let faults = faults.filter(|cause| wanted(cause, false));
    let clauses = clauses.filter(|cause| wanted(cause, true));
    faults.chain(clauses).map(|cause| (CAUSE, cause)).collect()
}

/// What scripts of a kind are to reach; None if they need not reach anything.
pub fn sought(kind: &str) -> Option<BTreeSet<Hit>> {
    let with_causes = |ring| targets(ring).union(&causes(ring)).cloned().collect();
    match kind {
        "mixed" => Some(with_causes(false)),
        "turning" => Some(with_causes(true)),
        "reading" => Some(reading_targets()),
        "mirror" => Some(mirror_targets()),
        "rehearse" => Some(rehearse_targets()),
        "carrying" => Some(carry_targets()),
        "upkeep" => Some(upkeep_targets()),
        _ => None,
    }
}

/// What upkeep can say, by each of its rules.
fn upkeep_targets() -> BTreeSet<Hit> {
    let rules = RULES.iter().map(|rule| (CAUSE, rule.to_string()));
    UPKEEP_ROWS.iter().flat_map(|row| row.hits()).chain(rules).collect()
}

/// The call of a cell, if it is one.
pub fn call_name(cell: &Cell) -> Option<&'static str> {
    match decode(cell) {
        Op::Call(call) => Some(name_of(&call)),
        _ => None,
    }
}

/// What the calls of a script answer, and the causes of their refusals.
pub fn hits(cells: &[Cell]) -> BTreeSet<Hit> {
    let mut driver = Driver::default();
    let mut all = BTreeSet::new();
    for cell in cells {
        let Op::Call(call) = decode(cell) else {
            driver.run(&decode(cell));
            continue;
        };
        let state = driver.state;
        let before = has_third_heading_or_carries(&driver, &call).then(|| driver.trial());
        let answer = driver.call(&call);
        all.insert((name_of(&call), label(&answer.to_string())));
        let behind = match answer {
            _ if is_reading(&call) => cases(&driver, &call, &answer),
            Answer::Advised(_) => rules(&driver, &call),
            Answer::Refused(refusal) => {
                cause(&driver, &state, &call, refusal).into_iter().collect()
            }
            _ => Vec::new(),
        };
        let carried = before.map_or(Vec::new(), |before| carry_cases(&before, &call, &answer));
        all.extend(behind.into_iter().chain(carried).map(|cause| (CAUSE, cause)));
    }
    all
}

/// The rules by which upkeep says what it says.
fn rules(driver: &Driver, call: &Call) -> Vec<String> {
    let Call::Advise { frame } = *call else {
        return Vec::new();
    };
    let said = driver.state.upkeep_by_rule(driver.volume(), driver.memory(), frame);
    said.map_or(Vec::new(), |(_, rules)| rules.iter().map(|rule| rule.to_string()).collect())
}

/// Whether a call's cases need the driver as it was.
fn has_third_heading_or_carries(driver: &Driver, call: &Call) -> bool {
    Heading::read(driver.volume()) == Some(Heading::Carrying)
        || matches!(call, Call::Start | Call::Restamp | Call::Finish)
}

/// What is behind a refusal by volume, state, log, notes or chain. An unsound state counts
/// if it breaks one clause only.
fn cause(driver: &Driver, state: &State, call: &Call, refusal: Refusal) -> Option<String> {
    let named = |fault: Fault| format!("{fault:?}");
    let geometry = match Geometry::read(driver.volume()) {
        Ok(geometry) => geometry,
        Err(fault) => return (!matches!(call, Call::Make { .. })).then(|| named(fault)),
    };
    match (refusal, call) {
        (Refusal::Lent, Call::Restart | Call::Inspect { .. }) => None,
        (Refusal::Lent, _) => {
            let broken = state.broken_clauses(&geometry, frame_count(driver.memory_len)?);
            (broken.len() == 1).then(|| broken[0].to_string())
        }
        (Refusal::LogBroken | Refusal::NotesBroken, _) => {
            recover(driver.volume(), &geometry).err().map(named)
        }
        (Refusal::BelowRun, _) => Some(named(Fault::BelowRun)),
        (Refusal::ChainBroken, Call::Load { page, .. }) => {
            let (entry, durable) = (state.entry(*page), state.durable);
            rebuild(driver.volume(), &geometry, *page, entry, durable).err().map(named)
        }
        (Refusal::LogFull, _) => state.log_room(driver.volume(), &geometry).err().map(named),
        (Refusal::NotesFull, _) => state.notes_room(driver.volume(), &geometry).err().map(named),
        _ => None,
    }
}

/// Counts of each answer, each class and each start in a driver's output.
pub fn count_output(output: &str) -> BTreeMap<String, usize> {
    let mut counts = BTreeMap::new();
    for line in output.lines() {
        let answer = label(line.split(" v=").next().unwrap_or(line));
        *counts.entry(answer.clone()).or_default() += 1;
        let words =
            answer.split_once(' ').filter(|_| !answer.contains(|c: char| c.is_ascii_digit()));
        if let Some((class, start)) = words {
            *counts.entry(format!("class {class}")).or_default() += 1;
            *counts.entry(format!("start {start}")).or_default() += 1;
        }
    }
    counts
}
