//! The script format of `drive`: its cells, and the driver that runs them.

pub mod args;
pub mod cell;
pub mod driver;
pub mod encode;
pub mod recorder;
