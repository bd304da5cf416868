//! Facts and vectors taken from the Rust. Everything here is deterministic:
//! one generator of numbers with fixed seeds, nothing from outside.

pub mod again;
pub mod card;
pub mod cards;
pub mod dsp;
pub mod facts;
pub mod find_sync;
pub mod fused;
pub mod ieee;
pub mod inner;
pub mod live;
pub mod machine;
pub mod modes;
pub mod places;
pub mod plain;
pub mod pulse;
pub mod record;
pub mod refusals;
pub mod ring;
pub mod rng;
pub mod sample;
pub mod scene;
pub mod search;
pub mod session;
pub mod shaped;
pub mod start;
pub mod tally;
pub mod train;
