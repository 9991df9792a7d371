//! The walk order.

use crate::Trigger;

/// The numbers of the states in walk order.
pub fn walk_order(trigger: &Trigger) -> Vec<u8> {
    let mut order = Vec::new();
    visit(trigger, 0, &mut order);
    for state in 0..trigger.states.len() {
        if !order.contains(&state) {
            order.push(state);
        }
    }
    order.iter().map(|state| *state as u8 + 1).collect()
}

/// Writes the state, then visits each target not yet written, in ascending order.
fn visit(trigger: &Trigger, state: usize, order: &mut Vec<usize>) {
    order.push(state);
    for target in &trigger.states[state].links {
        if !order.contains(target) {
            visit(trigger, *target, order);
        }
    }
}
