//! Safe calls of the trigger engine.
//!
//! A [`Session`] owns the memory that the engine works in. It is loaded with a trigger and a capture graph; then single
//! edges come and go, and each call tells whether the trigger fires and which pairs of a state and a node began or
//! ceased to stand. The trigger fires when every state that a chain of links reaches from State One, itself included,
//! stands at some node.
//!
//! ```
//! use trigger_engine::{Change, Rule, Session, State};
//!
//! // Two states that link to each other, two nodes, no edges yet.
//! let states = [
//!     State { mask: 0xFFFF, value: 1, links: 0b10, inverted: false },
//!     State { mask: 0xFFFF, value: 2, links: 0b01, inverted: false },
//! ];
//! let mut session = Session::new();
//! let report = session.load(&states, &[1, 2], &[])?;
//! assert!(!report.fires);
//!
//! // The second edge closes the ring: both pairs begin to stand together.
//! session.insert(0, 1)?;
//! let report = session.insert(1, 0)?;
//! assert!(report.fires);
//! let changes: Vec<Change> = report.changes().collect();
//! assert_eq!(changes, [
//!     Change { state: 1, node: 0, begins: true },
//!     Change { state: 2, node: 1, begins: true },
//! ]);
//!
//! // What breaks a rule is refused with it and changes nothing.
//! assert_eq!(session.insert(1, 0).unwrap_err(), Rule::EdgePresent);
//! assert!(session.matches(2, 1)?);
//! # Ok::<(), Rule>(())
//! ```
//!
//! [`lent`] has the same calls over memory that the caller lends.

mod change;
mod foreign;
pub mod lent;
mod rule;
mod session;

pub use change::{Change, Changes};
pub use lent::MAX_STATES;
pub use rule::Rule;
pub use session::{Report, Session, State};
