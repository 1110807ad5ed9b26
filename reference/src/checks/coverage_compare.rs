//! The cases behind the comparison of two volumes.

use crate::checks::abstract_log::Entry;
use crate::generators::mirror::changes_of;
use crate::script::driver::Driver;
use crate::store::answer::Refusal;
use crate::store::compare::{compare, Comparison};
use crate::store::geometry::Geometry;
use crate::store::record::Change;
use crate::store::recovered::Recovered;

pub const COMPARE_CASES: &[&str] = &[
    "1 for the first only",
    "1 for the second only",
    "17 for the first only",
    "17 for the second only",
    "18 for the first only",
    "18 for the second only",
    "24 for the first only",
    "24 for the second only",
    "the first has the lower number",
    "the second has the lower number",
    "pages differ",
    "kinds differ",
    "ranges differ",
    "fills differ",
    "bytes differ",
    "agreed with other counts",
    "an empty log is a beginning",
    "listed for the first only",
    "listed for the second only",
];

/// The cases of a comparison that the driver has made.
pub fn compare_cases(driver: &Driver) -> Vec<String> {
    match compare(driver.volume(), driver.second()) {
        Ok(compared) => common_cases(driver, compared.comparison),
        Err(_) => refused_case(driver).into_iter().collect(),
    }
}

fn refused_case(driver: &Driver) -> Option<String> {
    let number = |volume| {
        let fault = Recovered::whole(volume).err()?;
        Some(Refusal::from(fault).number())
    };
    match (number(driver.volume()), number(driver.second())) {
        (Some(one), Some(other)) if one < other => Some("the first has the lower number".into()),
        (Some(one), Some(other)) if one > other => Some("the second has the lower number".into()),
        (Some(one), None) => Some(format!("{one} for the first only")),
        (None, Some(other)) => Some(format!("{other} for the second only")),
        _ => None,
    }
}

fn common_cases(driver: &Driver, comparison: Comparison) -> Vec<String> {
    let (first, second) = (changes_of(driver.volume()), changes_of(driver.second()));
    let mut cases = Vec::new();
    match comparison {
        Comparison::Agree => {
            let counts = |volume| Geometry::read(volume).map(|geometry| geometry.counts());
            if counts(driver.volume()) != counts(driver.second()) {
                cases.push("agreed with other counts");
            }
        }
        Comparison::Differs(number) => {
            let (one, other) = (first[number - 1], second[number - 1]);
            match one.page == other.page {
                true => cases.push(difference(one.change, other.change)),
                false => cases.push("pages differ"),
            }
            let touched = |changes: &[Entry]| {
                changes[number - 1..].iter().map(|entry| entry.page).collect::<Vec<u16>>()
            };
            let (one, other) = (touched(&first), touched(&second));
            if one.iter().any(|page| !other.contains(page)) {
                cases.push("listed for the first only");
            }
            if other.iter().any(|page| !one.contains(page)) {
                cases.push("listed for the second only");
            }
        }
        _ if first.is_empty() || second.is_empty() => cases.push("an empty log is a beginning"),
        _ => {}
    }
    cases.into_iter().map(String::from).collect()
}

/// What differs first, in the order of the layout.
fn difference(one: Change, other: Change) -> &'static str {
    let range = |change| match change {
        Change::Format { .. } => (1, 0, 0),
        Change::Put { offset, length } => (2, offset, length),
        Change::Slide { offset, length } => (3, offset, length),
    };
    let (one_range, other_range) = (range(one), range(other));
    if one_range.0 != other_range.0 {
        "kinds differ"
    } else if one_range != other_range {
        "ranges differ"
    } else if one != other {
        "fills differ"
    } else {
        "bytes differ"
    }
}
