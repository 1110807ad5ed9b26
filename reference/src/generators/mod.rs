//! What makes volumes, histories and scripts to try.

pub mod arbitrary;
pub mod archive_episodes;
pub mod carry_episodes;
pub mod choose;
pub mod damage;
pub mod edge_episodes;
pub mod episodes;
pub mod forecast_episodes;
pub mod full;
pub mod history;
pub mod item_episodes;
pub mod lift;
pub mod mirror;
pub mod mirror_episodes;
pub mod mixed;
pub mod mutate;
pub mod reading;
pub mod rehearse_episodes;
pub mod rehearse_lists;
pub mod renewal;
pub mod rng;
pub mod upkeep_episodes;
pub mod world;
