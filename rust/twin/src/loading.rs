//! The load.

use crate::incoming::Edges;
use crate::layout::{
    EDGES, EDGES_AT, HALF, INVERTED_AT, LINKS_AT, MARKS_AT, MASKS_AT, NODES, ROOM, SAMPLES_AT, SESSION, STATES,
    VALUES_AT, union,
};
use crate::refine::{Waiting, refine};
use crate::report::{Changes, accepted};
use crate::states::{States, first_states};

/// What a load is given, a slice for each field, and the set of inverted states.
#[derive(Clone, Copy, Debug, Default)]
pub struct Load<'a> {
    /// The mask of each state.
    pub masks: &'a [u16],
    /// The value of each state.
    pub values: &'a [u16],
    /// The links of each state, bit 0 for State One.
    pub links: &'a [u32],
    /// The inverted states, bit 0 for State One.
    pub inverted: u32,
    /// The sample of each node.
    pub samples: &'a [u16],
    /// The start of each edge.
    pub starts: &'a [u32],
    /// The end of each edge.
    pub ends: &'a [u32],
}

/// The first rule that a load breaks, 0 where none.
fn rule(load: &Load, session: usize, room: usize) -> u64 {
    let (states, nodes) = (load.masks.len(), load.samples.len());
    if session < SESSION || room < ROOM {
        return 3;
    }
    if states == 0 || states > STATES || load.values.len() != states || load.links.len() != states {
        return 4;
    }
    let missing = !first_states(states);
    if load.inverted & missing != 0 {
        return 4;
    }
    if union(load.links) & missing != 0 {
        return 5;
    }
    if nodes > NODES {
        return 6;
    }
    if load.starts.len() > EDGES || load.starts.len() != load.ends.len() {
        return 7;
    }
    let outside = |ends: &[u32]| ends.iter().any(|node| *node as usize >= nodes);
    if outside(load.starts) || outside(load.ends) {
        return 8;
    }
    let number = |edge: usize| load.starts[edge] * 512 + load.ends[edge];
    if (1..load.starts.len()).any(|edge| number(edge - 1) >= number(edge)) {
        return 9;
    }
    0
}

/// Writes a section: its words, then zeros.
fn fill(section: &mut [u32], words: impl Iterator<Item = u32>) {
    let mut places = section.iter_mut();
    // The places come second, so that none is taken when the words are at their end.
    for (word, place) in words.zip(places.by_ref()) {
        *place = word;
    }
    places.for_each(|place| *place = 0);
}

/// Loads trigger and graph into the session.
pub fn load(session: &mut [u32], load: &Load, changes: &mut [i32]) -> u64 {
    let rule = rule(load, session.len(), changes.len());
    if rule != 0 {
        return rule;
    }
    if load.masks.len() > HALF {
        load_in::<STATES>(session, load, changes)
    } else {
        load_in::<HALF>(session, load, changes)
    }
}

/// The load where no rule is broken.
fn load_in<const WIDTH: usize>(session: &mut [u32], load: &Load, changes: &mut [i32]) -> u64 {
    let fixed: &mut [u32; SESSION] = session.first_chunk_mut().expect("rule 3 holds");
    let (count, nodes, edges) = (load.masks.len(), load.samples.len(), load.starts.len());
    fixed[..INVERTED_AT].copy_from_slice(&[count as u32, nodes as u32, edges as u32]);
    fixed[INVERTED_AT] = load.inverted;
    let numbers = load.starts.iter().zip(load.ends).map(|(start, end)| start * 512 + end);
    fill(&mut fixed[MASKS_AT..VALUES_AT], load.masks.iter().map(|word| (*word).into()));
    fill(&mut fixed[VALUES_AT..LINKS_AT], load.values.iter().map(|word| (*word).into()));
    fill(&mut fixed[LINKS_AT..SAMPLES_AT], load.links.iter().copied());
    fill(&mut fixed[SAMPLES_AT..EDGES_AT], load.samples.iter().map(|word| (*word).into()));
    fill(&mut fixed[EDGES_AT..MARKS_AT], numbers);
    let states = States::<WIDTH>::read(fixed, count);
    fill(&mut fixed[MARKS_AT..], load.samples.iter().map(|sample| states.admitting((*sample).into())));

    let (front, marks) = fixed.split_at_mut(MARKS_AT);
    let marks: &mut [u32; NODES] = marks.first_chunk_mut().expect("512 mark words");
    let trials = marks.iter().map(|word| word.count_ones()).sum();
    let callers = states.callers();
    let mut indexed = Edges::indexed(&front[EDGES_AT..][..edges]);
    let mut waiting = Waiting::new();
    for node in (0..nodes).rev() {
        waiting.add(node);
    }
    let settled = [0; NODES];
    refine(&states, &callers, &mut indexed, &settled, marks, &mut waiting, |_, _| true);
    let mut list = Changes::new(changes);
    for (node, word) in marks.iter().enumerate().take(nodes) {
        list.add(node, *word, 1);
    }
    accepted(states.fires(union(marks)), trials, list.count)
}
