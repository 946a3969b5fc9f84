//! A morning at a gate, decoded by the proved library: a model of twelve states, a simulated recording, what is
//! printed, and a picture of it; and a passage of an exit lane, whose model has an end state.

#![forbid(unsafe_code)]

pub mod consequences;
pub mod decode;
pub mod exit_lane;
pub mod figures;
pub mod file_flip;
pub mod flip;
pub mod model;
pub mod morning;
pub mod picture;
pub mod random;
pub mod recording;
pub mod report;
pub mod rivals;
pub mod simulation;
pub mod states;
pub mod stored;
pub mod words;
