//! The durable logs of two volumes, held against each other.

use crate::checks::fault::Fault;
use crate::store::answer::Refusal;
use crate::store::geometry::MAX_PAGES;
use crate::store::record::Record;
use crate::store::recovered::Recovered;

#[derive(Clone, Copy, Debug, PartialEq, Eq)]
pub enum Comparison {
    Agree,
    /// The first log is a beginning of the second and lacks so many records.
    FirstLacks(usize),
    SecondLacks(usize),
    /// The first number at which the changes differ.
    Differs(usize),
}

#[derive(Clone, Copy, Debug, PartialEq, Eq)]
pub struct Compared {
    pub comparison: Comparison,
    /// Pages with a record in either log past what they have in common.
    pub touched: [bool; MAX_PAGES],
}

/// Compares the changes; numbers, links and checksums follow from them.
pub fn compare(first: &[u8], second: &[u8]) -> Result<Compared, Refusal> {
    let (first, second) = both(Recovered::whole(first), Recovered::whole(second))?;
    let (first, second) = (&first.log.records, &second.log.records);
    let common = first.iter().zip(second).take_while(|(one, other)| same(one, other)).count();
    let comparison = match (first.len() - common, second.len() - common) {
        (0, 0) => Comparison::Agree,
        (0, lacking) => Comparison::FirstLacks(lacking),
        (lacking, 0) => Comparison::SecondLacks(lacking),
        _ => Comparison::Differs(common + 1),
    };
    let mut touched = [false; MAX_PAGES];
    for record in first[common..].iter().chain(&second[common..]) {
        touched[usize::from(record.page) - 1] = true;
    }
    Ok(Compared { comparison, touched })
}

/// The lowest number wins, whichever volume it is given for.
fn both<'a>(
    first: Result<Recovered<'a>, Fault>,
    second: Result<Recovered<'a>, Fault>,
) -> Result<(Recovered<'a>, Recovered<'a>), Refusal> {
    match (first.map_err(Refusal::from), second.map_err(Refusal::from)) {
        (Ok(first), Ok(second)) => Ok((first, second)),
        (Err(one), Err(other)) if other.number() < one.number() => Err(other),
        (Err(refusal), _) | (_, Err(refusal)) => Err(refusal),
    }
}

fn same(one: &Record, other: &Record) -> bool {
    (one.page, one.change, one.payload) == (other.page, other.change, other.payload)
}
