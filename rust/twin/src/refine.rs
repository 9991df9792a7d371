//! Refinement: tentative pairs without support go until none is left.

use crate::incoming::Edges;
use crate::layout::NODES;
use crate::states::{Callers, States};

/// Nodes that wait to be looked at: a queue in which a node is at most once.
pub struct Waiting {
    queue: [u16; NODES],
    front: usize,
    length: usize,
    inside: [bool; NODES],
}

impl Waiting {
    pub fn new() -> Waiting {
        Waiting { queue: [0; NODES], front: 0, length: 0, inside: [false; NODES] }
    }

    pub fn add(&mut self, node: usize) {
        if !self.inside[node] {
            self.inside[node] = true;
            self.queue[(self.front + self.length) % NODES] = node as u16;
            self.length += 1;
        }
    }

    pub fn take(&mut self) -> Option<usize> {
        if self.length == 0 {
            return None;
        }
        let node = self.queue[self.front] as usize;
        self.front = (self.front + 1) % NODES;
        self.length -= 1;
        self.inside[node] = false;
        Some(node)
    }
}

/// The states reached by edges, as soon as all that are needed are.
pub fn reached(edges: &[u32], needed: u32, held: impl Fn(usize) -> u32) -> u32 {
    let mut reached = 0;
    for number in edges {
        reached |= held(*number as usize % 512);
        if needed & !reached == 0 {
            break;
        }
    }
    reached
}

/// The states of a tentative set at a node that have a link without carrier.
pub fn uncarried<const WIDTH: usize>(
    states: &States<WIDTH>,
    edges: &[u32],
    set: u32,
    held: impl Fn(usize) -> u32,
) -> u32 {
    let needed = states.targets(set);
    let reached = reached(edges, needed, held);
    if needed & !reached == 0 {
        return 0;
    }
    states.uncarried(set, reached)
}

/// Clears tentative pairs that have no support among settled and tentative ones. `dropped` is told each node with what
/// it lost, and whether to go on.
pub fn refine<const WIDTH: usize>(
    states: &States<WIDTH>,
    callers: &Callers<WIDTH>,
    edges: &mut Edges,
    settled: &[u32; NODES],
    tentative: &mut [u32; NODES],
    waiting: &mut Waiting,
    mut dropped: impl FnMut(usize, u32) -> bool,
) {
    while let Some(node) = waiting.take() {
        let set = tentative[node];
        let held = |end: usize| settled[end] | tentative[end];
        let lost = uncarried(states, edges.out_of(node), set, held);
        if lost == 0 {
            continue;
        }
        tentative[node] = set & !lost;
        if !dropped(node, tentative[node]) {
            return;
        }
        let shaken = callers.into(lost);
        edges.each_start(node, |start| {
            if tentative[start] & shaken != 0 {
                waiting.add(start);
            }
        });
    }
}
