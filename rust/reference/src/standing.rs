//! The greatest simulation.

use crate::{Graph, Relation, Trigger};

/// The admitted pairs.
pub fn admitted(trigger: &Trigger, graph: &Graph) -> Relation {
    Relation::of(trigger.states.len(), graph.nodes(), |state, node| trigger.states[state].admits(graph.samples[node]))
}

/// Whether each link of the state is carried by an edge from the node into the relation.
fn supported(trigger: &Trigger, graph: &Graph, relation: &Relation, state: usize, node: usize) -> bool {
    trigger.states[state].links.iter().all(|target| graph.ends[node].iter().any(|end| relation.has(*target, *end)))
}

/// The pairs that stand: from the admitted ones, unsupported ones are removed until none is left.
pub fn standing(trigger: &Trigger, graph: &Graph) -> Relation {
    supported_part(trigger, graph, admitted(trigger, graph))
}

/// What is left of a relation when unsupported pairs are removed until none is left.
pub fn supported_part(trigger: &Trigger, graph: &Graph, mut relation: Relation) -> Relation {
    loop {
        let mut removed = false;
        for (state, node) in relation.places() {
            if relation.has(state, node) && !supported(trigger, graph, &relation, state, node) {
                relation.remove(state, node);
                removed = true;
            }
        }
        if !removed {
            return relation;
        }
    }
}
