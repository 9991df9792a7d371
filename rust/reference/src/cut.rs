//! A trigger cut down to its reached states.

use crate::{State, Trigger};
use std::collections::BTreeSet;

/// The reached states: State One, and every state that a chain of links of any length leads to from it.
pub fn reached(trigger: &Trigger) -> BTreeSet<usize> {
    let mut reached = BTreeSet::from([0]);
    let mut waiting = vec![0];
    while let Some(state) = waiting.pop() {
        for target in &trigger.states[state].links {
            if reached.insert(*target) {
                waiting.push(*target);
            }
        }
    }
    reached
}

/// The trigger of the reached states alone, numbered anew from 0; before it the states kept, ascending, each at the place
/// of its new number.
pub fn cut(trigger: &Trigger) -> (Vec<usize>, Trigger) {
    let kept: Vec<usize> = reached(trigger).into_iter().collect();
    let anew = |state: &usize| kept.iter().position(|other| other == state).expect("links of reached states are kept");
    let renumbered = |state: &usize| {
        let state = &trigger.states[*state];
        State { links: state.links.iter().map(anew).collect(), ..state.clone() }
    };
    let states = kept.iter().map(renumbered).collect();
    (kept, Trigger { states })
}
