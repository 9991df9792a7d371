//! The trial set of an insertion.

use crate::standing::admitted;
use crate::{Graph, Relation, Trigger};

/// The least set of pairs, admitted but not standing before, with the two clauses of an insertion of (start, end).
/// The graph holds the edge already; `before` is what stood without it.
pub fn trial_set(trigger: &Trigger, graph: &Graph, before: &Relation, (start, end): (usize, usize)) -> Relation {
    let admitted = admitted(trigger, graph);
    let mut set = Relation::of(trigger.states.len(), graph.nodes(), |_, _| false);
    loop {
        let mut added = false;
        for (state, node) in set.places() {
            let fresh = admitted.has(state, node) && !before.has(state, node);
            if !fresh || set.has(state, node) {
                continue;
            }
            let links = &trigger.states[state].links;
            let seed = node == start && links.iter().any(|target| admitted.has(*target, end));
            let reaches = links.iter().any(|target| graph.ends[node].iter().any(|next| set.has(*target, *next)));
            if seed || reaches {
                set.add(state, node);
                added = true;
            }
        }
        if !added {
            return set;
        }
    }
}
