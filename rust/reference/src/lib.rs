//! The plain fixed-point program: everything the engine answers, computed afresh from the definitions.
//!
//! It keeps no index and corrects nothing. Standing is what is left when unsupported pairs are removed until none is
//! left; the trial set is what is there when pairs are added until none is to add; firing is told of the trigger cut down
//! to its reached states, with a fixed point of its own. It shares no code with the engine.

pub mod book;
pub mod changes;
pub mod cut;
pub mod firing;
pub mod frames;
pub mod graph;
pub mod layout;
pub mod relation;
pub mod rules;
pub mod standing;
pub mod trials;
pub mod trigger;
pub mod walk;

pub use book::{Book, Report};
pub use graph::Graph;
pub use relation::Relation;
pub use rules::Given;
pub use trigger::{State, Trigger};
