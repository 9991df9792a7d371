//! The calls over memory that the caller lends, of any length and content.
//!
//! A refused call leaves all lent memory as it was. An accepted one writes the session's fixed size and the front of the
//! change room, and nothing past them.
//!
//! ```
//! use trigger_engine::lent::{self, Load};
//!
//! let mut session = vec![0; lent::session_words()];
//! let mut changes = vec![0; lent::change_places()];
//! let load = Load { masks: &[0], values: &[0], links: &[0], samples: &[7, 7], ..Load::default() };
//! let answer = lent::load(&mut session, &load, &mut changes);
//! assert_eq!(answer.rule(), 0);
//! assert!(answer.yes());
//! assert_eq!(changes[..answer.changes()], [1, 65]);
//!
//! // State One is inverted: anything but 7.
//! let load = Load { masks: &[0xFFFF], values: &[7], links: &[0], inverted: 1, samples: &[7, 8], ..Load::default() };
//! let answer = lent::load(&mut session, &load, &mut changes);
//! assert_eq!(changes[..answer.changes()], [65]);
//!
//! // A mask of zero admits every node, inverted or not; the session holds the inversion as it was given.
//! let answer = lent::load(&mut session, &Load { masks: &[0], ..load }, &mut changes);
//! assert_eq!(changes[..answer.changes()], [1, 65]);
//! assert_eq!(session[3], 1);
//!
//! // There is no second state to invert.
//! assert_eq!(lent::load(&mut session, &Load { inverted: 0b10, ..load }, &mut changes).rule(), 4);
//! assert_eq!(lent::fires(&session[1..]).rule(), 3);
//! ```

use crate::{Rule, foreign};

/// The most states of a trigger, and the places that a walk order is written to.
pub const MAX_STATES: usize = 32;

/// What a load is given, a slice for each field, and the set of inverted states. Masks, values and links go together,
/// starts and ends go together.
#[derive(Clone, Copy, Debug, Default)]
pub struct Load<'a> {
    /// The mask of each state.
    pub masks: &'a [u16],
    /// The value of each state.
    pub values: &'a [u16],
    /// The links of each state, bit 0 for State One.
    pub links: &'a [u32],
    /// The inverted states, bit 0 for State One. A bit of a state that is not there is refused with rule 4; that of a state
    /// of mask zero is held, and the state admits every node all the same.
    pub inverted: u32,
    /// The sample of each node.
    pub samples: &'a [u16],
    /// The start of each edge.
    pub starts: &'a [u32],
    /// The end of each edge.
    pub ends: &'a [u32],
}

/// The answer of a call in one word.
#[derive(Clone, Copy, Debug, PartialEq, Eq)]
pub struct Answer(pub u64);

impl Answer {
    /// The number of the first rule broken, 0 where the call is accepted.
    pub fn rule(self) -> u8 {
        self.0 as u8
    }

    /// Whether the trigger fires, or a question is answered with yes.
    pub fn yes(self) -> bool {
        self.0 >> 8 & 1 == 1
    }

    /// The trial count.
    pub fn trials(self) -> u32 {
        (self.0 >> 16) as u32 & 0xFF_FFFF
    }

    /// The number of changes, or of states written.
    pub fn changes(self) -> usize {
        (self.0 >> 40) as usize
    }

    /// The answer, or the rule where it is a refusal.
    pub fn accepted(self) -> Result<Answer, Rule> {
        match self.rule() {
            0 => Ok(self),
            number => Err(Rule::from_number(number).expect("the engine answers rules 3 to 14")),
        }
    }
}

/// The fixed size of a session in words.
pub fn session_words() -> usize {
    foreign::session_words()
}

/// The places that a change room has at least.
pub fn change_places() -> usize {
    foreign::change_places()
}

/// Loads trigger and graph into the session.
pub fn load(session: &mut [u32], load: &Load, changes: &mut [i32]) -> Answer {
    foreign::load(session, load, changes)
}

/// Inserts an edge.
pub fn insert(session: &mut [u32], start: u32, end: u32, changes: &mut [i32]) -> Answer {
    foreign::insert(session, start, end, changes)
}

/// Deletes an edge.
pub fn delete(session: &mut [u32], start: u32, end: u32, changes: &mut [i32]) -> Answer {
    foreign::delete(session, start, end, changes)
}

/// Whether the state with this number stands at the node.
pub fn matches(session: &[u32], state: u32, node: u32) -> Answer {
    foreign::matches(session, state, node)
}

/// Whether the trigger fires: yes where every state that a chain of links reaches from State One, itself included, has a
/// mark at some node.
pub fn fires(session: &[u32]) -> Answer {
    foreign::fires(session)
}

/// Writes the numbers of the states in walk order, and zeros after them, into the first 32 places. Fewer places are
/// refused with rule 3.
///
/// ```
/// use trigger_engine::lent::{self, Load, MAX_STATES};
///
/// let mut session = vec![0; lent::session_words()];
/// let mut changes = vec![0; lent::change_places()];
/// // State One is linked to state 32, all others to none.
/// let mut links = [0; MAX_STATES];
/// links[0] = 1 << 31;
/// let load = Load { masks: &[0; MAX_STATES], values: &[0; MAX_STATES], links: &links, ..Load::default() };
/// assert_eq!(lent::load(&mut session, &load, &mut changes).rule(), 0);
///
/// let mut states = [0; MAX_STATES];
/// assert_eq!(lent::order(&session, &mut states).changes(), MAX_STATES);
/// assert_eq!(states[..4], [1, 32, 2, 3]);
/// assert_eq!(lent::order(&session, &mut states[1..]).rule(), 3);
/// ```
pub fn order(session: &[u32], states: &mut [u8]) -> Answer {
    foreign::order(session, states)
}
