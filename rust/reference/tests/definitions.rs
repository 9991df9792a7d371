//! The fixed points held against their definitions, by trying every set of pairs: all triggers of two states, plain and
//! inverted, blank (of mask zero) and not, all samples and all graphs of two nodes, each with every edge inserted or
//! deleted.

use reference::rules::{ROOM, SESSION};
use reference::standing::admitted;
use reference::{Book, Given, Graph, Relation, Trigger};

const STATES: usize = 2;
const NODES: usize = 2;

/// A set of pairs as bits.
fn relation(set: u32) -> Relation {
    Relation::of(STATES, NODES, |state, node| set >> (node * STATES + state) & 1 == 1)
}

fn bits(relation: &Relation) -> u32 {
    relation.pairs().map(|(state, node)| 1 << (node * STATES + state)).sum()
}

/// The admitted pairs: a plain state wants its own bit of the sample, an inverted one wants it to be missing, and a blank
/// one, inverted or not, wants nothing.
fn admissions(trigger: &Trigger, graph: &Graph) -> Relation {
    let one = |state: usize, node: usize| graph.samples[node] >> state & 1 == 1;
    let wanted = |state: usize, node: usize| one(state, node) ^ trigger.states[state].inverted;
    Relation::of(STATES, NODES, |state, node| trigger.states[state].mask == 0 || wanted(state, node))
}

/// Whether each pair is admitted, and each link of its state is carried by an edge into the set.
fn is_simulation(trigger: &Trigger, graph: &Graph, set: &Relation) -> bool {
    let admitted = admissions(trigger, graph);
    set.pairs().all(|(state, node)| {
        let carried = |target: &usize| (0..NODES).any(|end| graph.has(node, end) && set.has(*target, end));
        admitted.has(state, node) && trigger.states[state].links.iter().all(carried)
    })
}

/// The union of all simulations.
fn union_of_simulations(trigger: &Trigger, graph: &Graph) -> u32 {
    let sets = (0..1 << (STATES * NODES)).filter(|set| is_simulation(trigger, graph, &relation(*set)));
    sets.fold(0, |union, set| union | set)
}

/// Whether State One has a node in a set of pairs, and state 2 where State One has a link to it.
fn reached_have_nodes(trigger: &Trigger, set: u32) -> bool {
    let has_node = |wanted: usize| relation(set).pairs().any(|(state, _)| state == wanted);
    has_node(0) && (!trigger.states[0].links.contains(&1) || has_node(1))
}

/// The intersection of all sets of fresh pairs that hold both clauses of the trial set.
fn least_trial_set(trigger: &Trigger, graph: &Graph, before: u32, (start, end): (usize, usize)) -> u32 {
    let admitted = admissions(trigger, graph);
    let fresh = bits(&admitted) & !before;
    let closed = |set: &u32| {
        let held = relation(*set);
        relation(fresh).pairs().all(|(state, node)| {
            let links = &trigger.states[state].links;
            let first = node == start && links.iter().any(|target| admitted.has(*target, end));
            let next = |target: &usize| (0..NODES).any(|to| graph.has(node, to) && held.has(*target, to));
            let second = links.iter().any(next);
            !(first || second) || held.has(state, node)
        })
    };
    let sets = (0..1 << (STATES * NODES)).filter(|set| set & !fresh == 0).filter(closed);
    sets.fold(u32::MAX, |least, set| least & set)
}

/// Whether a changed pair has a chain of changed pairs to the edge's start, along links and edges of the graph.
fn has_chain(trigger: &Trigger, graph: &Graph, changed: &Relation, pair: (usize, usize), start: usize) -> bool {
    let mut reached = vec![pair];
    let mut place = 0;
    while let Some((state, node)) = reached.get(place).copied() {
        if node == start {
            return true;
        }
        for next in changed.pairs() {
            let follows = trigger.states[state].links.contains(&next.0) && graph.has(node, next.1);
            if follows && !reached.contains(&next) {
                reached.push(next);
            }
        }
        place += 1;
    }
    false
}

/// The book of a load: two bits of links for each state, two bits of each sample, a set of edges, one of inverted and
/// one of blank states.
fn book(links: u32, samples: u32, edges: u32, inverted: u32, blank: u16) -> Book {
    let held: Vec<u32> = (0..4).filter(|edge| edges >> edge & 1 == 1).collect();
    let given = Given {
        masks: &[1 & !blank, 2 & !blank],
        values: &[1, 2],
        links: &[links & 3, links >> 2],
        inverted,
        samples: &[samples as u16 & 3, samples as u16 >> 2],
        starts: &held.iter().map(|edge| edge / 2).collect::<Vec<u32>>(),
        ends: &held.iter().map(|edge| edge % 2).collect::<Vec<u32>>(),
    };
    Book::load(SESSION, ROOM, &given).unwrap().0
}

#[test]
fn standing_firing_trials_and_chains() {
    for case in 0..1u32 << 16 {
        let (links, samples, edges) = (case & 15, case >> 4 & 15, case >> 8 & 15);
        let (inverted, blank) = (case >> 12 & 3, (case >> 14) as u16);
        let before = book(links, samples, edges, inverted, blank);
        assert_eq!(admitted(&before.trigger, &before.graph), admissions(&before.trigger, &before.graph), "case {case}");
        let stood = bits(&before.standing);
        assert_eq!(stood, union_of_simulations(&before.trigger, &before.graph), "case {case}");
        assert_eq!(before.fires(), reached_have_nodes(&before.trigger, stood), "case {case}");
        for edge in 0..4u32 {
            let (start, end) = (edge / 2, edge % 2);
            let label = format!("case {case}, edge ({start}, {end})");
            let mut after = before.clone();
            let inserts = edges >> edge & 1 == 0;
            let (report, with_edge) = if inserts {
                let report = after.insert(ROOM, start, end).unwrap();
                let tried = least_trial_set(&after.trigger, &after.graph, stood, (start as usize, end as usize));
                assert_eq!(report.trials, tried.count_ones() as usize, "{label}");
                (report, after.graph.clone())
            } else {
                (after.delete(ROOM, start, end).unwrap(), before.graph.clone())
            };
            let stands = bits(&after.standing);
            assert_eq!(stands, union_of_simulations(&after.trigger, &after.graph), "{label}");
            assert_eq!(report.fires, reached_have_nodes(&after.trigger, stands), "{label}");
            let changed = relation(stood ^ stands);
            assert_eq!(report.changes.len(), changed.size(), "{label}");
            for pair in changed.pairs() {
                assert!(has_chain(&after.trigger, &with_edge, &changed, pair, start as usize), "{label}: {pair:?}");
            }
        }
    }
}
