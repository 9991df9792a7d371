//! Change numbers and change lists.

use crate::Relation;

/// The change of a pair by index: its size is node times 64 plus the state's number, positive where the pair began.
pub fn change(state: usize, node: usize, began: bool) -> i32 {
    let size = (node * 64 + state + 1) as i32;
    if began { size } else { -size }
}

/// The changes from one set of pairs to another, ascending by size.
pub fn changes(before: &Relation, after: &Relation) -> Vec<i32> {
    after
        .places()
        .filter(|(state, node)| before.has(*state, *node) != after.has(*state, *node))
        .map(|(state, node)| change(state, node, after.has(state, node)))
        .collect()
}
