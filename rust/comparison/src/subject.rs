//! What is compared with the plain fixed-point program: the engine, and its twin.

use crate::cases::Case;
use trigger_engine::lent::{self, Answer};

/// The calls over lent memory.
pub trait Subject: Copy {
    /// Loads a case.
    fn load(self, session: &mut [u32], case: &Case, changes: &mut [i32]) -> Answer;
    /// Inserts an edge.
    fn insert(self, session: &mut [u32], start: u32, end: u32, changes: &mut [i32]) -> Answer;
    /// Deletes an edge.
    fn delete(self, session: &mut [u32], start: u32, end: u32, changes: &mut [i32]) -> Answer;
    /// Whether a state stands at a node.
    fn matches(self, session: &[u32], state: u32, node: u32) -> Answer;
    /// Whether the trigger fires.
    fn fires(self, session: &[u32]) -> Answer;
    /// The walk order.
    fn order(self, session: &[u32], states: &mut [u8]) -> Answer;
}

/// The engine itself.
#[derive(Clone, Copy, Debug)]
pub struct Engine;

/// The same job in plain Rust.
#[derive(Clone, Copy, Debug)]
pub struct Twin;

impl Subject for Engine {
    fn load(self, session: &mut [u32], case: &Case, changes: &mut [i32]) -> Answer {
        let load = lent::Load {
            masks: &case.masks,
            values: &case.values,
            links: &case.links,
            inverted: case.inverted,
            samples: &case.samples,
            starts: &case.starts,
            ends: &case.ends,
        };
        lent::load(session, &load, changes)
    }

    fn insert(self, session: &mut [u32], start: u32, end: u32, changes: &mut [i32]) -> Answer {
        lent::insert(session, start, end, changes)
    }

    fn delete(self, session: &mut [u32], start: u32, end: u32, changes: &mut [i32]) -> Answer {
        lent::delete(session, start, end, changes)
    }

    fn matches(self, session: &[u32], state: u32, node: u32) -> Answer {
        lent::matches(session, state, node)
    }

    fn fires(self, session: &[u32]) -> Answer {
        lent::fires(session)
    }

    fn order(self, session: &[u32], states: &mut [u8]) -> Answer {
        lent::order(session, states)
    }
}

impl Subject for Twin {
    fn load(self, session: &mut [u32], case: &Case, changes: &mut [i32]) -> Answer {
        let load = twin::Load {
            masks: &case.masks,
            values: &case.values,
            links: &case.links,
            inverted: case.inverted,
            samples: &case.samples,
            starts: &case.starts,
            ends: &case.ends,
        };
        Answer(twin::load(session, &load, changes))
    }

    fn insert(self, session: &mut [u32], start: u32, end: u32, changes: &mut [i32]) -> Answer {
        Answer(twin::insert(session, start, end, changes))
    }

    fn delete(self, session: &mut [u32], start: u32, end: u32, changes: &mut [i32]) -> Answer {
        Answer(twin::delete(session, start, end, changes))
    }

    fn matches(self, session: &[u32], state: u32, node: u32) -> Answer {
        Answer(twin::matches(session, state, node))
    }

    fn fires(self, session: &[u32]) -> Answer {
        Answer(twin::fires(session))
    }

    fn order(self, session: &[u32], states: &mut [u8]) -> Answer {
        Answer(twin::order(session, states))
    }
}

/// The answer of an accepted load or edit as one word.
pub fn accepted(report: &reference::Report) -> Answer {
    let (trials, changes) = (report.trials as u64, report.changes.len() as u64);
    Answer(u64::from(report.fires) << 8 | trials << 16 | changes << 40)
}

/// The answer of a refused call as one word.
pub fn refused(number: u8) -> Answer {
    Answer(number.into())
}

/// The answer of a question as one word.
pub fn answered(answer: Result<bool, u8>) -> Answer {
    match answer {
        Ok(yes) => Answer(u64::from(yes) << 8),
        Err(number) => refused(number),
    }
}
