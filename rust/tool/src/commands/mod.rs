//! The commands, each in a module of its own.

pub mod check;
pub mod completions;
pub mod fields;
mod given;
pub mod index;
pub mod leads;
pub mod man;
pub mod open;
pub mod pack;
pub mod report;
pub mod samples;
pub mod write;
