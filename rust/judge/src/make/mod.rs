//! Records made for tests, sound and damaged, fixed by a seed.
//!
//! A sound record is a draft with free choices everywhere the rules leave one. Damage is aimed at
//! one row of the table, with all checks mended where that row is past them, or at several, or is
//! blind. Calls of the writer and indexes are made in the same way. All comes from an [`Rng`], so
//! that a seed gives the same bytes each time.

mod damage;
mod draft;
mod index;
mod plan;
mod rhythm;
mod rng;
mod section_1;
mod sound;
mod streams;
mod tables;
mod writing;

pub use damage::{aimed, blind, damaged, noise, several};
pub use index::{arrivals, broken_index, dated, index, to_index, two_indexes, Arrival, LentIndex};
pub use plan::{mend, mend_size};
pub use rhythm::MadeLead;
pub use rng::Rng;
pub use sound::{made, record, Made};
pub use writing::{to_encode, to_write, ToEncode, ToWrite};
