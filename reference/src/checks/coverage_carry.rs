//! The cases behind the calls that carry a volume over, and the others under the third heading.

use crate::checks::coverage::{Hit, CAUSE};
use crate::checks::coverage_table::{name_of, CARRY_ROWS, ROWS};
use crate::script::cell::Call;
use crate::script::driver::Driver;
use crate::store::answer::{Answer, Refusal, Start};
use crate::store::geometry::{frame_count, Geometry};
use crate::store::heading::{sealed_by_bytes, sealed_by_words, Heading};
use crate::store::image::image_page;
use crate::store::restart::recover;
use crate::store::state::IndexEntry;
use std::collections::BTreeSet;
use std::ops::Range;

const CASES: &[&str] = &[
    "start under Carrying",
    "start under Second",
    "restamp under First",
    "restamp under Second",
    "finish under First",
    "finish under Second",
    "old image in a page",
    "old image in a slot of the index",
    "old image in another slot",
    "image of both sums passed over",
    "new image passed over",
    "failing image passed over",
    "old image of another page passed over",
    "2 before 20",
    "a ring made",
    "no ring made",
    "start from an own image of the old sum",
    "start from an own image of the new sum",
    "start from a backup of the old sum",
    "start from a backup of the new sum",
];

/// The rows of the three calls, the cases, and every call taken under the third heading.
pub fn carry_targets() -> BTreeSet<Hit> {
    let taken = taken_names().map(under);
    let cases = CASES.iter().map(|case| case.to_string()).chain(taken);
    CARRY_ROWS.iter().flat_map(|row| row.hits()).chain(cases.map(|case| (CAUSE, case))).collect()
}

/// The calls that are looked for under the third heading.
fn taken_names() -> impl Iterator<Item = &'static str> {
    let names = ROWS.iter().map(|row| row.name).filter(|name| !name.starts_with("make"));
    names.chain(["forecast", "length"])
}

fn under(name: &str) -> String {
    format!("{name} under the third heading")
}

/// The cases of a call made on `before`, which is as the driver was.
pub fn carry_cases(before: &Driver, call: &Call, answer: &Answer) -> Vec<String> {
    let Ok(geometry) = Geometry::read(before.volume()) else {
        return Vec::new();
    };
    let mut cases = Vec::new();
    let is_carry = CARRY_ROWS.iter().any(|row| row.name == name_of(call));
    match answer {
        Answer::Refused(Refusal::Volume) if is_carry => {
            cases.push(format!("{} under {:?}", name_of(call), geometry.heading));
        }
        Answer::Refused(_) if !is_carry => {}
        _ if geometry.heading != Heading::Carrying => {}
        _ if !is_carry && !taken_names().any(|name| name == name_of(call)) => {}
        _ if is_carry => cases.extend(image_cases(before, &geometry, call, answer)),
        Answer::Rebuilt(rebuild) => {
            cases.push(under(name_of(call)));
            cases.extend(start_case(before, &geometry, call, rebuild.start));
        }
        _ => cases.push(under(name_of(call))),
    }
    cases
}

/// The first old image, and what is passed over before it.
fn image_cases(before: &Driver, geometry: &Geometry, call: &Call, answer: &Answer) -> Vec<String> {
    let sorts = sorts(before, geometry);
    let is_old = |sort: &&str| sort.starts_with("old image in");
    let frames = frame_count(before.memory_len);
    let sound = frames.is_some_and(|frames| before.state.is_sound(geometry, frames));
    let ring = if geometry.records >= 2 { "a ring made" } else { "no ring made" };
    let found: Vec<&str> = match (call, answer) {
        (Call::Finish, Answer::Refused(Refusal::Lent)) => {
            let left = sorts.iter().any(|sort| is_old(&sort));
            if left && !sound {
                vec!["2 before 20"]
            } else {
                Vec::new()
            }
        }
        (Call::Finish, Answer::Done) => vec![ring],
        (Call::Finish, _) => sorts.iter().copied().filter(is_old).take(1).collect(),
        (_, Answer::Done | Answer::Nothing) => {
            let first = sorts.iter().position(|sort| is_old(&sort)).unwrap_or(sorts.len());
            sorts.into_iter().take(first + 1).collect()
        }
        _ => Vec::new(),
    };
    found.into_iter().map(String::from).collect()
}

/// What lies in each place, pages before slots.
fn sorts(before: &Driver, geometry: &Geometry) -> Vec<&'static str> {
    let volume = before.volume();
    let pages = (1..=geometry.pages).map(|page| {
        let image = &volume[geometry.page(page)];
        sort(image, usize::from(image_page(image)) == page, "old image in a page")
    });
    let slots = (1..=geometry.slots).map(|slot| {
        let image = &volume[geometry.slot(slot)];
        let page = usize::from(image_page(image));
        let has_slot = |entry: &IndexEntry| usize::from(entry.backup_slot) == slot;
        match before.state.index.iter().any(has_slot) {
            true => {
                let owner = (1..=64).contains(&page) && has_slot(&before.state.index[page - 1]);
                sort(image, owner, "old image in a slot of the index")
            }
            false => sort(image, (1..=geometry.pages).contains(&page), "old image in another slot"),
        }
    });
    pages.chain(slots).collect()
}

fn sort(image: &[u8], belongs: bool, old: &'static str) -> &'static str {
    let belongs = belongs && image[2..4] == [0, 0];
    match (sealed_by_words(image), sealed_by_bytes(image)) {
        (true, true) => "image of both sums passed over",
        (true, false) if belongs => old,
        (true, false) => "old image of another page passed over",
        (false, true) => "new image passed over",
        (false, false) => "failing image passed over",
    }
}

fn start_case(before: &Driver, geometry: &Geometry, call: &Call, start: Start) -> Option<String> {
    let (Call::Load { page, .. } | Call::Inspect { page }) = *call else {
        return None;
    };
    let state = match call {
        Call::Load { .. } => before.state,
        _ => recover(before.volume(), geometry).ok()?,
    };
    let (name, place): (&str, Range<usize>) = match start {
        Start::Own => ("an own image", geometry.page(page.into())),
        Start::Backup => ("a backup", geometry.slot(state.entry(page).backup_slot.into())),
        Start::Format => return None,
    };
    let sum = if sealed_by_words(&before.volume()[place]) { "old" } else { "new" };
    Some(format!("start from {name} of the {sum} sum"))
}
