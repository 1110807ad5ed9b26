//! Two stores, the second of which follows the first's changes: what their comparison says
//! against what their abstract logs say.

use crate::checks::abstract_log::Entry;
use crate::checks::histories::{ensure, Checker};
use crate::generators::history::Style;
use crate::generators::mirror::{diverged, next_call, other_geometry};
use crate::generators::rng::Rng;
use crate::generators::world::{Event, World};
use crate::script::recorder::Script;
use crate::store::answer::Refusal;
use crate::store::calls::inspect;
use crate::store::compare::{compare, Compared, Comparison};
use crate::store::geometry::MAX_PAGES;
use crate::store::record::Change;

/// Events of a second store beyond three for each change.
const MORE_EVENTS: usize = 40;
/// Longer histories are not followed.
const MOST_CHANGES: usize = 120;

/// Runs a second store beside the first and compares the two, either way round.
pub fn check_pair(first: &Checker, rng: &mut Rng) -> Result<Option<Comparison>, String> {
    if first.abstract_log.durable.len() > MOST_CHANGES {
        return Ok(None);
    }
    let second = followed(first, rng)?;
    let compared = check_compare(first, &second).map_err(|text| second.report(&text))?;
    let turned = check_compare(&second, first).map_err(|text| second.report(&text))?;
    let mirrored = match (compared, turned) {
        (None, None) => true,
        (Some(one), Some(other)) => {
            one.touched == other.touched && exchanged(one.comparison) == other.comparison
        }
        _ => false,
    };
    ensure(mirrored, || second.report(&format!("{compared:?} one way, {turned:?} the other")))?;
    Ok(compared.map(|compared| compared.comparison))
}

fn exchanged(comparison: Comparison) -> Comparison {
    match comparison {
        Comparison::FirstLacks(count) => Comparison::SecondLacks(count),
        Comparison::SecondLacks(count) => Comparison::FirstLacks(count),
        other => other,
    }
}

/// A store of another geometry, with cuts and damage of its own.
fn followed(first: &Checker, rng: &mut Rng) -> Result<Checker, String> {
    let changes = diverged(first.abstract_log.durable.clone(), rng);
    let geometry = other_geometry(&first.world.geometry, changes.len(), rng);
    let style = Style::quiet(rng);
    let mut second = Checker::new(World::make(Script::default(), geometry, rng.byte()));
    for _ in 0..3 * changes.len() + MORE_EVENTS {
        let call = match second.world.live && rng.chance(800) {
            true => next_call(&second.world, &changes, rng),
            false => None,
        };
        let event = match call {
            Some(call) => Event::Call(call),
            None => style.next(&second.world, rng),
        };
        second.step(event, false)?;
    }
    Ok(second)
}

/// The comparison of two volumes is that of the durable lists, and pages that are not listed
/// are the same in both. None where record 1 has left either log.
fn check_compare(first: &Checker, second: &Checker) -> Result<Option<Compared>, String> {
    let compared = compare(first.world.volume(), second.world.volume());
    let lost = first.ring(&first.noted()?).gone() || second.ring(&second.noted()?).gone();
    if lost {
        ensure(compared == Err(Refusal::HistoryLost), || format!("record 1 left: {compared:?}"))?;
        return Ok(None);
    }
    let expected = compare_durable(&first.abstract_log.durable, &second.abstract_log.durable);
    ensure(compared == Ok(expected), || format!("{compared:?}, abstract logs {expected:?}"))?;
    let pages = first.world.geometry.pages.min(second.world.geometry.pages);
    for page in 1..=pages {
        if !expected.touched[page - 1] {
            check_same_page(first, second, page as u16)?;
        }
    }
    Ok(Some(expected))
}

/// Both blank, or the same number and body.
fn check_same_page(first: &Checker, second: &Checker, page: u16) -> Result<(), String> {
    let look = |checker: &Checker| {
        let mut buffer = [0; 256];
        let answer = inspect(checker.world.volume(), page, &mut buffer);
        let refusal = answer.is_refused().then(|| answer.to_string());
        (refusal, buffer[4..252].to_vec())
    };
    let (one, other) = (look(first), look(second));
    let known = one.0.as_ref().is_none_or(|refusal| refusal == "REFUSED 7");
    ensure(known && one == other, || format!("page {page} differs, and is not listed"))
}

fn compare_durable(first: &[Entry], second: &[Entry]) -> Compared {
    let first: Vec<_> = first.iter().map(plain).collect();
    let second: Vec<_> = second.iter().map(plain).collect();
    let mut common = 0;
    while common < first.len() && common < second.len() && first[common] == second[common] {
        common += 1;
    }
    let touches = |page: usize| {
        let later = first[common..].iter().chain(&second[common..]);
        later.into_iter().any(|change| usize::from(change.0) == page)
    };
    let mut touched = [false; MAX_PAGES];
    (1..=MAX_PAGES).for_each(|page| touched[page - 1] = touches(page));
    let comparison = if first == second {
        Comparison::Agree
    } else if second.starts_with(&first) {
        Comparison::FirstLacks(second.len() - first.len())
    } else if first.starts_with(&second) {
        Comparison::SecondLacks(first.len() - second.len())
    } else {
        Comparison::Differs(common + 1)
    };
    Compared { comparison, touched }
}

/// Page and change with the bytes that count.
fn plain(entry: &Entry) -> (u16, Change, &[u8]) {
    let used = match entry.change {
        Change::Format { .. } => 0,
        Change::Put { length, .. } | Change::Slide { length, .. } => usize::from(length),
    };
    (entry.page, entry.change, &entry.payload[..used])
}
