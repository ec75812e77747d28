//! Runs of the original, written down as its transcription (the crate `original`) writes them, for the checker to compute again.

pub mod additions;
pub mod file;
pub mod notation;
pub mod sets;
pub mod traces;
