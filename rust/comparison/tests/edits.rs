//! Loads and long lists of edits, refused ones included, compared after each call.

use comparison::cases::{first_states, some_inverted};
use comparison::random::seed;
use comparison::{Case, Edit, Engine, Follower, Random, Subject, Twin};
use reference::rules::{EDGES, NODES, ROOM, SESSION, STATES};
use std::collections::BTreeSet;
use trigger_engine::lent::Answer;

/// Random cases, each followed through at most so many edits. Gives how many edits changed a pair.
fn follow<S: Subject>(subject: S, test: &str, cases: u64, edits: usize, case: impl Fn(&mut Random) -> Case) -> usize {
    let seed = seed(test);
    let mut changed = 0;
    for number in 0..cases {
        let mut random = Random::new(seed, number);
        let case = case(&mut random);
        let label = format!("{test}: seed {seed}, case {number}");
        let mut follower = Follower::load(subject, &mut random, &label, &case);
        for _ in 0..random.below(edits + 1) {
            let edit = follower.any_edit(&mut random);
            if random.once_in(50) {
                let _ = follower.edit_in(edit, random.below(ROOM));
            } else {
                let _ = follower.edit(edit);
            }
            if random.once_in(8) {
                let nodes = follower.book.graph.nodes();
                follower.ask(random.below(STATES + 2) as u32, random.below(nodes + 1) as u32);
                follower.ask_trigger();
            }
        }
        if case.samples.len() < 10 || random.once_in(10) {
            follower.ask_all();
        }
        changed += follower.changed;
    }
    changed
}

fn small(random: &mut Random) -> Case {
    let (states, nodes) = (random.between(1, 4), random.below(7));
    let (edges, kinds) = (random.below(nodes * nodes + 1), random.between(1, 3));
    Case::random(random, states, nodes, edges, kinds)
}

fn middle(random: &mut Random) -> Case {
    let (states, nodes) = (random.between(1, STATES), random.between(1, 60));
    let (edges, kinds) = (random.below(4 * nodes), random.between(1, 5));
    Case::random(random, states, nodes, edges, kinds)
}

fn large(random: &mut Random) -> Case {
    let (states, nodes) = (random.between(12, STATES), random.between(400, NODES));
    let (edges, kinds) = (random.between(1000, EDGES), random.between(1, 12));
    Case::random(random, states, nodes, edges, kinds)
}

/// A third of the cases has sixteen states, as many as half a set has.
fn full(random: &mut Random) -> Case {
    let (states, kinds) = (*random.pick(&[16, STATES, STATES]), random.between(1, 12));
    Case::random(random, states, NODES, EDGES, kinds)
}

/// Few nodes, and as many states as sets have bits at the ends of their halves.
fn halves(random: &mut Random) -> Case {
    let (states, nodes) = (*random.pick(&[15, 16, 17, 18, 31, STATES]), random.between(1, 9));
    let (edges, kinds) = (random.below(nodes * nodes + 1), random.between(1, 3));
    Case::random(random, states, nodes, edges, kinds)
}

#[test]
fn small_and_dense() {
    let changed = follow(Engine, "small_and_dense", 20_000, 40, small);
    assert!(changed > 20_000, "only {changed} edits changed a pair");
}

#[test]
fn states_at_the_ends_of_halves() {
    let changed = follow(Engine, "states_at_the_ends_of_halves", 3_000, 30, halves);
    assert!(changed > 3_000, "only {changed} edits changed a pair");
}

#[test]
fn middle_sizes() {
    let changed = follow(Engine, "middle_sizes", 1_500, 60, middle);
    assert!(changed > 1_500, "only {changed} edits changed a pair");
}

#[test]
fn large_sizes() {
    let changed = follow(Engine, "large_sizes", 40, 60, large);
    assert!(changed > 40, "only {changed} edits changed a pair");
}

#[test]
fn every_limit_at_once() {
    let changed = follow(Engine, "every_limit_at_once", 30, 120, full);
    assert!(changed > 30, "only {changed} edits changed a pair");
}

#[test]
fn one_long_list() {
    let case = |random: &mut Random| Case::random(random, 6, 24, 60, 3);
    let changed = follow(Engine, "one_long_list", 20, 12_000, case);
    assert!(changed > 2_000, "only {changed} edits changed a pair");
}

#[test]
fn the_twin_of_the_benchmark() {
    follow(Twin, "the_twin_of_the_benchmark", 5_000, 40, small);
    follow(Twin, "the_twin_of_the_benchmark", 1_000, 30, halves);
    follow(Twin, "the_twin_of_the_benchmark", 400, 60, middle);
    follow(Twin, "the_twin_of_the_benchmark", 10, 60, full);
}

/// A ring of states on a ring of nodes: nothing stands while it is open, everything when it is closed. Half of the rings
/// have inverted states, which admit the same nodes.
#[test]
fn rings_opened_and_closed() {
    let seed = seed("rings_opened_and_closed");
    let half = [(1, 1), (1, 2), (2, 1), (2, 3), (3, 5), (5, 7), (16, 1), (16, 8), (16, 32), (1, 512), (7, 73)];
    let sizes = [&half[..], &[(17, 1), (17, 30), (31, 2), (STATES, 1), (STATES, 16)]].concat();
    for (number, (states, turns)) in sizes.into_iter().enumerate() {
        for (closed, inverts) in [(false, false), (true, false), (false, true), (true, true)] {
            let mut random = Random::new(seed, number as u64);
            let (mut case, (a, b)) = Case::ring(&mut random, states, turns, closed);
            if inverts && states <= 16 {
                let inverted = random.between(1, (1 << states) - 1) as u32;
                case = case.with_inverted(inverted);
            } else if inverts {
                // Some of the first states and some of the last, the last one with them.
                let inverted = random.below(1 << 5) as u32 | (random.between(16, 31) as u32) << (states - 5);
                case = case.ring_with_inverted(inverted);
            }
            let inverted = case.inverted;
            let label = format!("ring of {states} states and {turns} turns, inverted {inverted:#x}, seed {seed}");
            let mut follower = Follower::load(Engine, &mut random, &label, &case);
            let nodes = states * turns;
            let (insert, delete) = (Edit::Insert(a, b), Edit::Delete(a, b));
            if closed {
                let report = follower.edit(delete).unwrap();
                assert_eq!((report.fires, report.changes.len()), (false, nodes), "{label}");
            }
            for _ in 0..2 {
                let report = follower.edit(insert).unwrap();
                assert_eq!((report.fires, report.trials, report.changes.len()), (true, nodes, nodes), "{label}");
                assert_eq!(follower.edit(insert), Err(12), "{label}");
                let report = follower.edit(delete).unwrap();
                assert_eq!((report.fires, report.trials, report.changes.len()), (false, nodes, nodes), "{label}");
                assert_eq!(follower.edit(delete), Err(14), "{label}");
            }
            // A chord closes a shorter ring, which stands with all that leads to it where states fit.
            for _ in 0..6 {
                let edit = follower.any_edit(&mut random);
                let _ = follower.edit(edit);
            }
            follower.ask_trigger();
        }
    }
}

/// Every trigger of two states with every admission, walked through every graph of three nodes by single edges.
#[test]
fn every_graph_of_three_nodes() {
    every_graph(2, 3);
}

/// Every trigger of three states with every admission, walked through every graph of two nodes by single edges.
#[test]
fn every_graph_of_two_nodes() {
    every_graph(3, 2);
}

/// Half of the triggers have inverted states.
fn every_graph(states: usize, nodes: usize) {
    let mut random = Random::new(1, 1);
    for links in 0..1u32 << (states * states) {
        for admission in 0..1u32 << (states * nodes) {
            // State s compares bit s alone; the sample of a node has the bits of the plain states that admit it, and of
            // the inverted ones that do not. Where a state is to admit every node, half of the time its mask is zero.
            let mut case = Case { inverted: some_inverted(&mut random, states), ..Case::default() };
            for state in 0..states {
                let word = links >> (state * states) & ((1 << states) - 1);
                let everywhere = (0..nodes).all(|node| admission >> (node * states + state) & 1 == 1);
                let mask = if everywhere && random.once_in(2) { 0 } else { 1 << state };
                case.state(mask, 1 << state, word);
            }
            for node in 0..nodes {
                let admitting = admission >> (node * states) & ((1 << states) - 1);
                case.samples.push((admitting ^ case.inverted) as u16);
            }
            let label = format!("{states} states, {nodes} nodes, links {links}, admission {admission}");
            let mut follower = Follower::load(Engine, &mut random, &label, &case);
            // A Gray code changes one edge a step.
            for step in 1..1u32 << (nodes * nodes) {
                let edge = step.trailing_zeros() as usize;
                let (start, end) = (edge / nodes, edge % nodes);
                let (a, b) = (start as u32, end as u32);
                let edit = if follower.book.graph.has(start, end) { Edit::Delete(a, b) } else { Edit::Insert(a, b) };
                follower.edit(edit).unwrap();
            }
        }
    }
}

/// A chain into a node whose edge to itself comes and goes: every pair changes, and with 32 states the list fills the
/// whole room. Masks of zero admit every node, inverted or not.
#[test]
fn chains_that_fill_the_change_room() {
    let kinds = [(false, 0), (true, 0), (false, u32::MAX), (true, 0xAAAA_AAAA)];
    for (states, (against, inverted)) in [16, STATES].into_iter().flat_map(|states| kinds.map(|kind| (states, kind))) {
        let nodes = NODES as u32;
        let number = |place: u32| if against { nodes - 1 - place } else { place };
        let inverted = inverted & first_states(states);
        let mut case = Case { inverted, samples: vec![0; NODES], ..Case::default() };
        for state in 0..states {
            case.state(0, 0xFFFF, 1 << state);
        }
        case.edges(&(1..nodes).map(|place| (number(place - 1), number(place))).collect());
        let last = number(nodes - 1);
        let label = format!("chain of {states} states against the grain: {against}, inverted {inverted:#x}");
        let mut follower = Follower::load(Engine, &mut Random::new(1, 1), &label, &case);
        let pairs = NODES * states;
        let report = follower.edit_in(Edit::Insert(last, last), ROOM).unwrap();
        assert_eq!((report.fires, report.trials, report.changes.len()), (true, pairs, pairs), "{label}");
        let report = follower.edit_in(Edit::Delete(last, last), ROOM).unwrap();
        assert_eq!((report.fires, report.trials, report.changes.len()), (false, pairs, pairs), "{label}");
        assert_eq!(follower.edit_in(Edit::Insert(last, last), ROOM - 1), Err(3), "{label}");
    }
}

/// 32 states that admit every node, each linked to the next, on a ring of 512 nodes: of 16,384 pairs all stand while it is
/// closed, and none while it is open. Each answer as one number, with both counts at their most.
fn all_pairs_at_once<S: Subject>(subject: S) {
    let mut case = Case { samples: vec![0; 512], ..Case::default() };
    for state in 0..32 {
        case.state(0, 0, 1 << ((state + 1) % 32));
    }
    let row: BTreeSet<(u32, u32)> = (1..512).map(|node| (node - 1, node)).collect();
    case.edges(&row);
    let (silent, tried) = (Answer(0x4000 << 16), Answer(0x4000 << 40 | 0x4000 << 16));
    let fires = Answer(tried.0 | 1 << 8);
    let sizes = || (0..512).flat_map(|node| (1..=32).map(move |state| node * 64 + state));

    let (mut session, mut room) = (vec![7; SESSION], vec![7; 16_384]);
    assert_eq!(subject.load(&mut session, &case, &mut room), silent);
    assert_eq!(subject.insert(&mut session, 511, 0, &mut room[..16_383]), Answer(3));
    assert_eq!(subject.insert(&mut session, 511, 0, &mut room), fires);
    assert!(room.iter().copied().eq(sizes()));
    assert_eq!(subject.delete(&mut session, 511, 0, &mut room[1..]), Answer(3));
    assert_eq!(subject.delete(&mut session, 511, 0, &mut room), tried);
    assert!(room.iter().copied().eq(sizes().map(|size| -size)));

    // Loaded closed, with every pair in its list.
    case.edges(&row.into_iter().chain([(511, 0)]).collect());
    assert_eq!(subject.load(&mut session, &case, &mut room[1..]), Answer(3));
    assert_eq!(subject.load(&mut session, &case, &mut room), fires);
    assert!(room.iter().copied().eq(sizes()));
    assert_eq!((fires.trials(), fires.changes(), fires.yes()), (16_384, 16_384, true));
}

#[test]
fn all_pairs_of_a_ring_at_once() {
    all_pairs_at_once(Engine);
    all_pairs_at_once(Twin);
}
