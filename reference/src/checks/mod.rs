//! What holds histories and answers against what they must be.

pub mod abstract_log;
pub mod archive;
pub mod carry;
pub mod carrying;
pub mod coverage;
pub mod coverage_carry;
pub mod coverage_compare;
pub mod coverage_reading;
pub mod coverage_rehearse;
pub mod coverage_table;
pub mod fault;
pub mod forecast;
pub mod histories;
pub mod inspect;
pub mod pair;
pub mod rehearse;
pub mod ring;
pub mod same;
