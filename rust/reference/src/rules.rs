//! The numbered rules, each call's in their sequence: the first that is broken is the answer.

use crate::layout::MARKS_AT;
use crate::trigger::bits;
use crate::{Graph, Trigger};

/// The most states of a trigger.
pub const STATES: usize = 32;
/// The most nodes of a graph.
pub const NODES: usize = 512;
/// The most edges of a graph.
pub const EDGES: usize = 2048;
/// The fixed size of a session in words.
pub const SESSION: usize = MARKS_AT + NODES;
/// The places that a change room has at least: one for each pair.
pub const ROOM: usize = NODES * STATES;

/// What a load is given, a list for each field, and the set of inverted states.
#[derive(Clone, Copy, Debug)]
pub struct Given<'a> {
    /// The mask of each state.
    pub masks: &'a [u16],
    /// The value of each state.
    pub values: &'a [u16],
    /// The links of each state, bit 0 for State One.
    pub links: &'a [u32],
    /// The inverted states, bit 0 for State One.
    pub inverted: u32,
    /// The sample of each node.
    pub samples: &'a [u16],
    /// The start of each edge.
    pub starts: &'a [u32],
    /// The end of each edge.
    pub ends: &'a [u32],
}

/// The number of the first row that applies.
fn first(rows: &[(u8, bool)]) -> Result<(), u8> {
    match rows.iter().find(|(_, broken)| *broken) {
        Some((number, _)) => Err(*number),
        None => Ok(()),
    }
}

/// Whether session memory or change room is too short.
fn short(memory: usize, room: usize) -> bool {
    memory < SESSION || room < ROOM
}

/// The rules of a load, for a memory and a room of these lengths.
pub fn load_rules(memory: usize, room: usize, given: &Given) -> Result<(), u8> {
    let states = given.masks.len();
    // An inversion of a state that has neither mask nor value.
    let inversion_alone = bits(given.inverted).any(|bit| bit >= states);
    let state_in_part = given.values.len() != states || given.links.len() != states || inversion_alone;
    let nodes = given.samples.len();
    let edge_in_part = given.starts.len() != given.ends.len();
    let edges: Vec<(u32, u32)> = given.starts.iter().copied().zip(given.ends.iter().copied()).collect();
    let outside = |node: u32| node as usize >= nodes;
    first(&[
        (3, short(memory, room)),
        (4, states == 0 || states > STATES || state_in_part),
        (5, given.links.iter().any(|word| bits(*word).any(|bit| bit >= states))),
        (6, nodes > NODES),
        (7, edges.len() > EDGES || edge_in_part),
        (8, edges.iter().any(|(start, end)| outside(*start) || outside(*end))),
        (9, edges.windows(2).any(|two| two[0] >= two[1])),
    ])
}

/// The rules of an insertion or deletion into a graph, without rules 3 and 10.
fn edit_rules(graph: &Graph, inserts: bool, start: u32, end: u32) -> Result<(), u8> {
    let outside = |node: u32| node as usize >= graph.nodes();
    first(&[(11, outside(start) || outside(end))])?;
    let present = graph.has(start as usize, end as usize);
    first(&[(12, inserts && present), (13, inserts && graph.edge_count() == EDGES), (14, !inserts && !present)])
}

/// The rules of an insertion, for a change room of this length.
pub fn insert_rules(graph: &Graph, room: usize, start: u32, end: u32) -> Result<(), u8> {
    first(&[(3, short(SESSION, room))])?;
    edit_rules(graph, true, start, end)
}

/// The rules of a deletion, for a change room of this length.
pub fn delete_rules(graph: &Graph, room: usize, start: u32, end: u32) -> Result<(), u8> {
    first(&[(3, short(SESSION, room))])?;
    edit_rules(graph, false, start, end)
}

/// The rule of the question whether a state stands at a node.
pub fn question_rules(trigger: &Trigger, graph: &Graph, state: u32, node: u32) -> Result<(), u8> {
    let no_state = state == 0 || state as usize > trigger.states.len();
    first(&[(11, no_state || node as usize >= graph.nodes())])
}
