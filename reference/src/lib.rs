//! An independent second implementation of documents 01 and 02, the page store with its log and its
//! page recovery index, with a script driver, an abstract log and generators to hold
//! implementations against each other.

pub mod checks;
pub mod generators;
pub mod planning;
pub mod script;
pub mod store;
