//! Safe wrappers of the proved functions, and the volumes on which they are tried.

pub mod full;
pub mod proved;
pub mod store;
