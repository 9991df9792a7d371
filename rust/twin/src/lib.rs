//! The engine's job in plain Rust: the same calls, checks, memory and answers, written for speed and not proved.
//!
//! The benchmark times the engine beside it. Answers are one word: bits 0 to 7 the rule broken (0: accepted), bit 8
//! firing or yes, bits 16 to 39 the trial count, bits 40 to 63 the number of changes or of states written.

mod edits;
mod grow;
mod incoming;
mod layout;
mod loading;
mod questions;
mod refine;
mod report;
mod states;

pub use edits::{delete, insert};
pub use loading::{Load, load};
pub use questions::{fires, matches, order};
