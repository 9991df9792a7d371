//! The trial set of an insertion.

use crate::incoming::Edges;
use crate::layout::NODES;
use crate::refine::Waiting;
use crate::states::{Callers, States};

/// A table of trial pairs and its nodes in the order in which they were found.
pub struct Trials {
    pub table: [u32; NODES],
    pub nodes: [u16; NODES],
    pub found: usize,
}

/// Grows the trial set from the seeds at one node.
pub fn grow<const WIDTH: usize>(
    states: &States<WIDTH>,
    callers: &Callers<WIDTH>,
    edges: &mut Edges,
    samples: &[u32; NODES],
    marks: &[u32; NODES],
    start: usize,
    seeds: u32,
) -> Trials {
    let mut trials = Trials { table: [0; NODES], nodes: [0; NODES], found: 1 };
    trials.table[start] = seeds;
    trials.nodes[0] = start as u16;
    let mut fresh = [0; NODES];
    fresh[start] = seeds;
    let mut waiting = Waiting::new();
    waiting.add(start);
    while let Some(node) = waiting.take() {
        let linked = callers.into(std::mem::take(&mut fresh[node]));
        edges.each_start(node, |from| {
            let open = linked & !marks[from] & !trials.table[from];
            if open == 0 {
                return;
            }
            let gained = open & states.admitting(samples[from]);
            if gained == 0 {
                return;
            }
            if trials.table[from] == 0 {
                trials.nodes[trials.found] = from as u16;
                trials.found += 1;
            }
            trials.table[from] |= gained;
            fresh[from] |= gained;
            waiting.add(from);
        });
    }
    trials
}
