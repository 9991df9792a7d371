//! Triggers and graphs to load.

use crate::random::Random;
use reference::Book;
use reference::rules::{EDGES, NODES, ROOM, SESSION, STATES};
use reference::standing::admitted;
use reference::trigger::bits;
use std::collections::BTreeSet;

/// A trigger and a graph, a list for each field, and the set of inverted states.
#[derive(Clone, Debug, Default)]
pub struct Case {
    /// The mask of each state.
    pub masks: Vec<u16>,
    /// The value of each state.
    pub values: Vec<u16>,
    /// The links of each state.
    pub links: Vec<u32>,
    /// The inverted states, bit 0 for State One.
    pub inverted: u32,
    /// The sample of each node.
    pub samples: Vec<u16>,
    /// The start of each edge.
    pub starts: Vec<u32>,
    /// The end of each edge.
    pub ends: Vec<u32>,
}

impl Case {
    /// The case as the plain fixed-point program takes it.
    pub fn given(&self) -> reference::Given<'_> {
        reference::Given {
            masks: &self.masks,
            values: &self.values,
            links: &self.links,
            inverted: self.inverted,
            samples: &self.samples,
            starts: &self.starts,
            ends: &self.ends,
        }
    }

    /// Adds a plain state.
    pub fn state(&mut self, mask: u16, value: u16, links: u32) {
        self.masks.push(mask);
        self.values.push(value);
        self.links.push(links);
    }

    /// Adds an inverted state.
    pub fn inverted_state(&mut self, mask: u16, value: u16, links: u32) {
        self.inverted |= 1 << self.masks.len();
        self.state(mask, value, links);
    }

    /// Whether the state with this index is inverted.
    pub fn is_inverted(&self, state: usize) -> bool {
        self.inverted >> state & 1 == 1
    }

    /// Whether the state with this index is blank, that is of mask zero, and inverted.
    pub fn is_blank_inverted(&self, state: usize) -> bool {
        self.masks[state] == 0 && self.is_inverted(state)
    }

    /// Takes these edges in ascending order.
    pub fn edges(&mut self, edges: &BTreeSet<(u32, u32)>) {
        (self.starts, self.ends) = edges.iter().copied().unzip();
    }

    /// A random case with so many states, nodes and edges; fewer edges where the nodes do not have so many. `kinds` is
    /// the number of different samples: the fewer, the more pairs are admitted. Half of the cases have inverted states, a
    /// third of which is blank; half have orphans, states that are not reached from State One.
    pub fn random(random: &mut Random, states: usize, nodes: usize, edges: usize, kinds: usize) -> Case {
        let mut case = Case { inverted: some_inverted(random, states), ..Case::default() };
        for state in 0..states {
            let mut mask = *random.pick(&[0x0000, 0xFFFF, 0xFFFF, 0x0001, 0x0003, 0x8001]);
            // Blank and inverted is the one exception of admission: often, so that it is met in every kind of case.
            if case.is_inverted(state) && random.once_in(5) {
                mask = 0;
            }
            let mut value = random.below(kinds) as u16;
            if random.once_in(8) {
                value = random.word() as u16;
            }
            let links = links(random, states);
            case.state(mask, value, links);
        }
        let orphans = some_orphans(random, states);
        leave_orphans(random, &mut case.links, orphans);
        for _ in 0..nodes {
            let sample = random.below(kinds) as u16 | (random.below(2) as u16) << 15;
            case.samples.push(if random.once_in(2) { sample } else { sample & 0x7FFF });
        }
        let edges = edges.min(nodes * nodes);
        let mut held = BTreeSet::new();
        while held.len() < edges {
            held.insert((random.below(nodes) as u32, random.below(nodes) as u32));
        }
        case.edges(&held);
        case
    }

    /// A ring of states around a ring of nodes, each state admitting every so many nodes. The nodes stand in the order
    /// of a random numbering, and the ring is open before its last edge or closed.
    pub fn ring(random: &mut Random, states: usize, turns: usize, closed: bool) -> (Case, (u32, u32)) {
        let nodes = states * turns;
        let mut numbers: Vec<u32> = (0..nodes as u32).collect();
        for last in (1..nodes).rev() {
            numbers.swap(last, random.below(last + 1));
        }
        let mut case = Case::default();
        for state in 0..states {
            case.state(0xFFFF, state as u16, 1 << ((state + 1) % states));
        }
        case.samples = vec![0; nodes];
        let mut edges = BTreeSet::new();
        for place in 0..nodes {
            case.samples[numbers[place] as usize] = (place % states) as u16;
            edges.insert((numbers[place], numbers[(place + 1) % nodes]));
        }
        let last = (numbers[nodes - 1], numbers[0]);
        if !closed {
            edges.remove(&last);
        }
        case.edges(&edges);
        (case, last)
    }

    /// The same links, edges and admissions with these states inverted, of no more states than a sample has bits: each
    /// state compares one bit of the sample, its own, which the samples of a plain state have where it is admitted and
    /// those of an inverted one where it is not.
    pub fn with_inverted(&self, inverted: u32) -> Case {
        let (book, _) = Book::load(SESSION, ROOM, &self.given()).expect("the case breaks no rule");
        let admitted = admitted(&book.trigger, &book.graph);
        let mut case = Case { starts: self.starts.clone(), ends: self.ends.clone(), ..Case::default() };
        for (state, links) in self.links.iter().enumerate() {
            case.state(1 << state, 1 << state, *links);
        }
        case.inverted = inverted;
        let bit = |state: usize, node: usize| u16::from(admitted.has(state, node) != case.is_inverted(state)) << state;
        let sample = |node: usize| (0..self.masks.len()).map(|state| bit(state, node)).sum();
        case.samples = (0..self.samples.len()).map(sample).collect();
        case
    }

    /// The same ring with these states inverted, few enough for the bits of a sample that five bits leave: these have the
    /// number of a node's state, and an inverted state admits the nodes that have a bit of its own.
    pub fn ring_with_inverted(&self, inverted: u32) -> Case {
        let own: Vec<usize> = bits(inverted).collect();
        let bit = |state: usize| own.iter().position(|other| *other == state).map_or(0, |place| 1 << (place + 5));
        let mut case = Case { starts: self.starts.clone(), ends: self.ends.clone(), inverted, ..Case::default() };
        for (state, links) in self.links.iter().enumerate() {
            if case.is_inverted(state) {
                case.state(bit(state), 0, *links);
            } else {
                case.state(0x001F, state as u16, *links);
            }
        }
        case.samples = self.samples.iter().map(|sample| sample | bit(usize::from(*sample))).collect();
        case
    }

    /// Breaks a rule of the load in one of the ways that it can be broken.
    pub fn damage(&mut self, random: &mut Random, rule: u8) {
        let states = self.masks.len();
        match rule {
            4 => match random.below(7) {
                0 => *self = Case { masks: vec![], values: vec![], links: vec![], ..self.clone() },
                1 => (0..=STATES).for_each(|_| self.state(random.word() as u16, 0, 0)),
                2 => drop(self.masks.pop()),
                3 => self.values.push(random.word() as u16),
                4 => self.links.push(0),
                // With 32 states there is none to invert that is not there.
                5 if states < STATES => self.inverted |= 1 << random.between(states, 31),
                _ => drop(self.links.pop()),
            },
            5 => {
                let bit = random.between(self.masks.len().min(31), 31);
                if let Some(place) = states.checked_sub(1).map(|last| random.between(0, last))
                    && let Some(word) = self.links.get_mut(place)
                {
                    *word |= 1 << bit;
                }
            }
            6 => self.samples.resize(random.between(NODES + 1, 700), 0),
            7 => match random.below(3) {
                0 => self.starts.push(0),
                1 => self.ends.push(0),
                _ => {
                    let long = random.between(EDGES + 1, 2200) as u32;
                    self.starts = (0..long).map(|i| i / 64).collect();
                    self.ends = (0..long).map(|i| i % 64).collect();
                }
            },
            8 => {
                let nodes = self.samples.len() as u32;
                let most = NODES as u32;
                let outside = [nodes, nodes + 1, nodes.max(most - 1), nodes.max(most), 1 << 23, u32::MAX];
                let outside = *random.pick(&outside);
                let edges = if random.once_in(2) { &mut self.starts } else { &mut self.ends };
                if let Some(last) = edges.len().checked_sub(1) {
                    let place = random.between(0, last);
                    edges[place] = outside;
                }
            }
            _ => {
                let edges = self.starts.len().min(self.ends.len());
                if edges >= 2 {
                    let (one, other) = (random.below(edges), random.below(edges));
                    if random.once_in(2) {
                        (self.starts[one], self.ends[one]) = (self.starts[other], self.ends[other]);
                    } else {
                        self.starts.swap(one, other);
                        self.ends.swap(one, other);
                    }
                }
            }
        }
    }
}

/// The set of the first so many states, one at least.
pub fn first_states(states: usize) -> u32 {
    u32::MAX >> (STATES - states)
}

/// A set of inverted states: none half of the time, else any but none.
pub fn some_inverted(random: &mut Random, states: usize) -> u32 {
    if random.once_in(2) { 0 } else { random.between(1, first_states(states) as usize) as u32 }
}

/// A set of links: none, one, a few or many.
fn links(random: &mut Random, states: usize) -> u32 {
    let one = |random: &mut Random| 1 << random.below(states);
    match random.below(8) {
        0 => 0,
        1..=3 => one(random),
        4..=5 => one(random) | one(random),
        6 => one(random) | one(random) | one(random),
        _ => random.word() as u32 & first_states(states),
    }
}

/// A set of orphans, State One never among them: none half of the time, else of any size.
fn some_orphans(random: &mut Random, states: usize) -> u32 {
    let mut orphans: u32 = 0;
    if states > 1 && random.once_in(2) {
        let size = random.between(1, states - 1) as u32;
        while orphans.count_ones() < size {
            orphans |= 1 << random.between(1, states - 1);
        }
    }
    orphans
}

/// Takes and adds links so that exactly the states outside a set are reached from State One. Orphans keep theirs, to each
/// other and to reached states.
fn leave_orphans(random: &mut Random, links: &mut [u32], orphans: u32) {
    let others: Vec<usize> = (0..links.len()).filter(|state| orphans >> state & 1 == 0).collect();
    others.iter().for_each(|state| links[*state] &= !orphans);
    for state in others {
        let reached = led_to(links, 1);
        if reached >> state & 1 == 0 {
            let from: Vec<usize> = bits(reached).collect();
            links[*random.pick(&from)] |= 1 << state;
        }
    }
}

/// A set of states and all that chains of links lead to from it. No chain needs more links than there are states.
fn led_to(links: &[u32], set: u32) -> u32 {
    links.iter().fold(set, |set, _| bits(set).fold(set, |all, state| all | links[state]))
}

#[cfg(test)]
mod tests {
    use super::*;
    use reference::Trigger;
    use reference::cut::reached;

    /// 1,000 cases with so many states.
    fn drawn(states: usize) -> impl Iterator<Item = Case> {
        (0..1_000).map(move |number| Case::random(&mut Random::new(1, number), states, 2, 2, 3))
    }

    /// How many of 1,000 cases with so many states have one that is blank and inverted.
    fn blank_inverted(states: usize) -> usize {
        drawn(states).filter(|case| (0..states).any(|state| case.is_blank_inverted(state))).count()
    }

    /// Half of the cases invert, and a third of their inverted states is blank: one case in six with a single state, and
    /// nearly every second one with sixteen or more.
    #[test]
    fn blank_inverted_states_are_drawn_often() {
        let counts = [1, 3, 16, STATES].map(blank_inverted);
        assert!(counts[0] > 120 && counts[1] > 200 && counts[2] > 400 && counts[3] > 400, "{counts:?}");
        assert!(counts[2] < 600 && counts[3] < 600, "{counts:?}: other triggers are drawn as well");
    }

    /// How many of 1,000 cases with so many states have an orphan; one that is linked to a reached state; two orphans that
    /// lead to each other; and orphans while a state beside State One is reached.
    fn orphans(states: usize) -> [usize; 4] {
        let mut counts = [0; 4];
        for Case { masks, values, links, .. } in drawn(states) {
            let reached: u32 = reached(&Trigger::new(&masks, &values, &links, 0)).iter().map(|state| 1 << state).sum();
            let orphans: Vec<usize> = (0..states).filter(|state| reached >> state & 1 == 0).collect();
            let leads = |from: usize, to: usize| led_to(&links, 1 << from) >> to & 1 == 1;
            let in_ring = |one: usize| orphans.iter().any(|two| one != *two && leads(one, *two) && leads(*two, one));
            let kinds = [
                !orphans.is_empty(),
                orphans.iter().any(|state| links[*state] & reached != 0),
                orphans.iter().any(|state| in_ring(*state)),
                !orphans.is_empty() && reached != 1,
            ];
            counts.iter_mut().zip(kinds).for_each(|(count, kind)| *count += usize::from(kind));
        }
        counts
    }

    /// In the other half every state is reached. A single state is no orphan, and two orphans need three states.
    #[test]
    fn half_of_the_cases_have_orphans() {
        assert_eq!(orphans(1), [0; 4]);
        for states in [2, 3, 5, 16, 17, STATES] {
            let counts = orphans(states);
            assert!((400..600).contains(&counts[0]) && counts[1] > 200, "{states} states: {counts:?}");
            assert!(states == 2 || counts[2] > 20 && counts[3] > 200, "{states} states: {counts:?}");
        }
    }

    /// How many of 1,000 cases with so many states have a link, an inversion and an orphan past the first sixteen.
    fn past_the_first_half(states: usize) -> [usize; 3] {
        let upper = |set: u32| usize::from(set >> 16 != 0);
        let mut counts = [0; 3];
        for Case { links, inverted, .. } in drawn(states) {
            counts[0] += links.iter().copied().map(upper).max().unwrap_or(0);
            counts[1] += upper(inverted);
            counts[2] += upper(first_states(states) & !led_to(&links, 1));
        }
        counts
    }

    #[test]
    fn the_upper_half_of_sets_is_drawn() {
        assert_eq!(past_the_first_half(16), [0; 3]);
        for states in [17, 24, STATES] {
            let counts = past_the_first_half(states);
            assert!(counts[0] > 500 && counts[1] > 150 && counts[2] > 150, "{states} states: {counts:?}");
        }
    }
}
