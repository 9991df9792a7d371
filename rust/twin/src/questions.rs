//! The questions.

use crate::layout::{HALF, MARKS_AT, SESSION, STATES, is_wide, shape};
use crate::report::accepted;

/// Whether the state with this number stands at the node.
pub fn matches(session: &[u32], state: u32, node: u32) -> u64 {
    if is_wide(session) { matches_in::<STATES>(session, state, node) } else { matches_in::<HALF>(session, state, node) }
}

fn matches_in<const WIDTH: usize>(session: &[u32], state: u32, node: u32) -> u64 {
    if session.len() < SESSION {
        return 3;
    }
    let Some(shape) = shape::<WIDTH>(session) else {
        return 10;
    };
    if node as usize >= shape.nodes || state == 0 || state as usize > shape.states.count {
        return 11;
    }
    let marks = session[MARKS_AT + node as usize];
    accepted(marks >> (state - 1) & 1 == 1, 0, 0)
}

/// Whether the trigger fires.
pub fn fires(session: &[u32]) -> u64 {
    if is_wide(session) { fires_in::<STATES>(session) } else { fires_in::<HALF>(session) }
}

fn fires_in<const WIDTH: usize>(session: &[u32]) -> u64 {
    if session.len() < SESSION {
        return 3;
    }
    match shape::<WIDTH>(session) {
        Some(shape) => accepted(shape.states.fires(shape.marked), 0, 0),
        None => 10,
    }
}

/// Writes the numbers of the states in walk order, and zeros after them, into the first 32 places.
pub fn order(session: &[u32], states: &mut [u8]) -> u64 {
    if is_wide(session) { order_in::<STATES>(session, states) } else { order_in::<HALF>(session, states) }
}

fn order_in<const WIDTH: usize>(session: &[u32], states: &mut [u8]) -> u64 {
    let Some(places) = states.first_chunk_mut::<STATES>() else {
        return 3;
    };
    if session.len() < SESSION {
        return 3;
    }
    let Some(shape) = shape::<WIDTH>(session) else {
        return 10;
    };
    let count = shape.states.count;
    let mut order = [0; STATES];
    let mut written = 0;
    let mut visited = 0;
    visit(&shape.states.links, 0, &mut visited, &mut order, &mut written);
    for state in 0..count {
        if visited >> state & 1 == 0 {
            order[written] = state as u8 + 1;
            written += 1;
        }
    }
    *places = order;
    accepted(false, 0, written)
}

/// Writes a state and visits its targets that are not yet visited; no deeper than there are states.
fn visit<const WIDTH: usize>(
    links: &[u32; WIDTH],
    state: usize,
    visited: &mut u32,
    order: &mut [u8; STATES],
    written: &mut usize,
) {
    *visited |= 1 << state;
    order[*written] = state as u8 + 1;
    *written += 1;
    for target in 0..WIDTH {
        if links[state] & !*visited & 1 << target != 0 {
            visit(links, target, visited, order, written);
        }
    }
}
