//! What is timed: a case to load, and a list of calls that starts from it.

use comparison::{Case, Edit, Random};
use std::collections::BTreeSet;

/// A call of a workload.
#[derive(Clone, Copy, Debug)]
pub enum Call {
    /// An insertion or a deletion.
    Edit(Edit),
    /// The load of the workload's case.
    Load,
    /// The question whether the trigger fires.
    Fires,
}

/// A case and the calls that start from it.
pub struct Workload {
    /// What it is.
    pub name: &'static str,
    /// The number of nodes.
    pub nodes: usize,
    /// What is loaded first.
    pub case: Case,
    /// The calls, made in this order.
    pub calls: Vec<Call>,
}

/// The number of calls in a list.
const CALLS: usize = 64;
/// The states of a trigger, in rows that say no other number.
const STATES: usize = 16;
/// As many as a trigger may have.
const MOST: usize = 32;
/// With so many kinds of samples hardly any pair of a random capture stands, and edits mostly change nothing.
const QUIET: usize = 16;
/// With so many some stand and some do not, and edits change some.
const MIXED: usize = 3;
/// With one kind nearly all stand, and edits mostly change nothing.
const ALIKE: usize = 1;

/// The workloads with so many nodes, at least 32. New ones come last, so that the others are drawn as they were.
pub fn workloads(nodes: usize) -> Vec<Workload> {
    let random = &mut Random::new(nodes as u64, 7);
    let workload = |name, (case, calls)| Workload { name, nodes, case, calls };
    let quiet = capture(random, STATES, nodes, QUIET);
    let mixed = capture(random, STATES, nodes, MIXED);
    let half = half_inverted(&mixed);
    vec![
        workload("capture, quiet edits", quiet),
        workload("capture, mixed edits", mixed),
        workload("capture, half inverted", half),
        workload("capture, window slides", window(random, nodes)),
        workload("ring opened and closed", ring(random, STATES, nodes)),
        workload("chain with the grain", chain(nodes, |place| place)),
        workload("chain against the grain", chain(nodes, |place| nodes - 1 - place)),
        workload("node with many edges", fan(random, nodes)),
        workload("capture, load", loads(random, STATES, nodes)),
        workload("capture, question", questions(random, STATES, nodes, MIXED)),
        workload("orphans, quiet", with_orphans(capture(random, STATES, nodes, ALIKE))),
        workload("orphans, question", with_orphans(questions(random, STATES, nodes, ALIKE))),
        workload("32 states, quiet edits", capture(random, MOST, nodes, QUIET)),
        workload("32 states, mixed edits", capture(random, MOST, nodes, MIXED)),
        workload("32 states, ring opened and closed", ring(random, MOST, nodes)),
        workload("32 states, load", loads(random, MOST, nodes)),
        workload("32 states, question", questions(random, MOST, nodes, MIXED)),
    ]
}

fn insert((start, end): (u32, u32)) -> Call {
    Call::Edit(Edit::Insert(start, end))
}

fn delete((start, end): (u32, u32)) -> Call {
    Call::Edit(Edit::Delete(start, end))
}

/// A ring of states on a random capture with four edges a node and so many kinds of samples.
fn loaded(random: &mut Random, states: usize, nodes: usize, kinds: usize) -> Case {
    let mut case = Case::default();
    for state in 0..states {
        case.state(0xFFFF, (state % kinds) as u16, 1 << ((state + 1) % states));
    }
    case.samples = (0..nodes).map(|_| random.below(kinds) as u16).collect();
    let mut held = BTreeSet::new();
    while held.len() < 4 * nodes {
        held.insert(absent(random, nodes, &held));
    }
    case.edges(&held);
    case
}

fn edges_of(case: &Case) -> Vec<(u32, u32)> {
    case.starts.iter().copied().zip(case.ends.iter().copied()).collect()
}

/// An edge that is not held.
fn absent(random: &mut Random, nodes: usize, held: &BTreeSet<(u32, u32)>) -> (u32, u32) {
    loop {
        let edge = (random.below(nodes) as u32, random.below(nodes) as u32);
        if !held.contains(&edge) {
            return edge;
        }
    }
}

/// A capture loaded over and over.
fn loads(random: &mut Random, states: usize, nodes: usize) -> (Case, Vec<Call>) {
    (loaded(random, states, nodes, MIXED), vec![Call::Load; 8])
}

/// A capture asked whether the trigger fires.
fn questions(random: &mut Random, states: usize, nodes: usize, kinds: usize) -> (Case, Vec<Call>) {
    (loaded(random, states, nodes, kinds), vec![Call::Fires; CALLS])
}

/// An edge goes and another comes, over and over.
fn capture(random: &mut Random, states: usize, nodes: usize, kinds: usize) -> (Case, Vec<Call>) {
    let case = loaded(random, states, nodes, kinds);
    let mut held: BTreeSet<(u32, u32)> = edges_of(&case).into_iter().collect();
    let mut calls = Vec::new();
    while calls.len() < CALLS {
        let edges: Vec<(u32, u32)> = held.iter().copied().collect();
        let gone = *random.pick(&edges);
        held.remove(&gone);
        let new = absent(random, nodes, &held);
        held.insert(new);
        calls.extend([delete(gone), insert(new)]);
    }
    (case, calls)
}

/// The same capture and edits with every other state inverted.
fn half_inverted((case, calls): &(Case, Vec<Call>)) -> (Case, Vec<Call>) {
    (Case { inverted: 0xAAAA, ..case.clone() }, calls.clone())
}

/// The same with a ring of half of the states. The others are orphans that lead to it, and the last one stands nowhere: the
/// trigger fires, and only its links tell that it does.
fn with_orphans((mut case, calls): (Case, Vec<Call>)) -> (Case, Vec<Call>) {
    case.links[STATES / 2 - 1] = 1;
    case.links[STATES - 2] = 1;
    case.values[STATES - 1] = u16::MAX;
    (case, calls)
}

/// The edges of a capture in the order of their arrival: the newest comes in, the oldest goes out.
fn window(random: &mut Random, nodes: usize) -> (Case, Vec<Call>) {
    let mut case = loaded(random, STATES, nodes, MIXED);
    let size = 4 * nodes - 1;
    let mut held = BTreeSet::new();
    let mut arrivals = Vec::new();
    while arrivals.len() < size + CALLS / 2 {
        let edge = absent(random, nodes, &held);
        held.insert(edge);
        arrivals.push(edge);
    }
    case.edges(&arrivals[..size].iter().copied().collect());
    let steps = (0..CALLS / 2).flat_map(|step| [insert(arrivals[size + step]), delete(arrivals[step])]);
    (case, steps.collect())
}

/// A ring of states on a ring of nodes: one edge opens and closes it.
fn ring(random: &mut Random, states: usize, nodes: usize) -> (Case, Vec<Call>) {
    let (case, last) = Case::ring(random, states, nodes / states, true);
    (case, [delete(last), insert(last)].repeat(CALLS / 2))
}

/// A chain of nodes into one with an edge to itself, which comes and goes; states linked to themselves.
pub fn chain(nodes: usize, number: impl Fn(usize) -> usize) -> (Case, Vec<Call>) {
    let mut case = Case { samples: vec![0; nodes], ..Case::default() };
    for state in 0..STATES {
        case.state(0, 0, 1 << state);
    }
    let node = |place: usize| number(place) as u32;
    let edges = (1..nodes).map(|place| (node(place - 1), node(place)));
    case.edges(&edges.collect());
    let last = (node(nodes - 1), node(nodes - 1));
    (case, [insert(last), delete(last)].repeat(CALLS / 2))
}

/// One node with an edge to every node; a state at it is linked to all others, each of them at one of the last nodes.
fn fan(random: &mut Random, nodes: usize) -> (Case, Vec<Call>) {
    let mut case = Case::default();
    case.state(0xFFFF, 0, 0xFFFE);
    for state in 1..STATES {
        case.state(0xFFFF, state as u16, 0);
    }
    case.samples = vec![99; nodes];
    case.samples[0] = 0;
    for state in 1..STATES {
        case.samples[nodes - state] = state as u16;
    }
    case.edges(&(0..nodes as u32).map(|end| (0, end)).collect());
    let mut calls = Vec::new();
    while calls.len() < CALLS {
        // Every other edge is one that carries a link.
        let end = if calls.len() % 4 == 0 { random.between(nodes - 15, nodes - 1) } else { random.below(nodes) };
        calls.extend([delete((0, end as u32)), insert((0, end as u32))]);
    }
    (case, calls)
}
