//! The store itself: items, the restart rule, the calls, and what reads a volume without a state.

pub mod answer;
pub mod archive;
pub mod bytes;
pub mod calls;
pub mod carry;
pub mod compare;
pub mod forecast;
pub mod geometry;
pub mod heading;
pub mod image;
pub mod note;
pub mod record;
pub mod recovered;
pub mod restart;
pub mod room;
pub mod scan;
pub mod section;
pub mod sound;
pub mod state;
pub mod upkeep;
pub mod walk;
