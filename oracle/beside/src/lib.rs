//! The Rust and the port side by side on the same inputs, bit for bit.

pub mod cards;
pub mod find;
pub mod fold;
pub mod lent;
pub mod pictures;
pub mod port;
pub mod refused;
pub mod run;
pub mod sessions;
pub mod sound;
