//! Firing: of a trigger and a graph, and of marks that a session holds.

use crate::cut::{cut, reached};
use crate::standing::standing;
use crate::{Graph, Relation, Trigger};

/// Whether the state has a node in the relation.
fn has_node(graph: &Graph, relation: &Relation, state: usize) -> bool {
    (0..graph.nodes()).any(|node| relation.has(state, node))
}

/// Document 000's match relation: what stands where every state stands at some node, else no pair.
pub fn matched(trigger: &Trigger, graph: &Graph) -> Relation {
    let (states, standing) = (trigger.states.len(), standing(trigger, graph));
    let total = (0..states).all(|state| has_node(graph, &standing, state));
    Relation::of(states, graph.nodes(), |state, node| total && standing.has(state, node))
}

/// Whether the trigger fires: cut down to its reached states, it has a match. What stands of the whole is not looked at.
pub fn fires(trigger: &Trigger, graph: &Graph) -> bool {
    let (_, cut) = cut(trigger);
    matched(&cut, graph).pairs().next().is_some()
}

/// Whether the trigger fires by marks, which may not be those of the graph: every reached state has one at some node.
pub fn marks_fire(trigger: &Trigger, graph: &Graph, marks: &Relation) -> bool {
    reached(trigger).into_iter().all(|state| has_node(graph, marks, state))
}
