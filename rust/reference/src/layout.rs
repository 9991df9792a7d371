//! The layout of a session: its image in words, and the test whether words are in layout.

use crate::rules::{EDGES, NODES, SESSION, STATES};
use crate::standing::admitted;
use crate::trigger::bits;
use crate::{Book, Graph, Relation, State, Trigger};

/// The place of the set of inverted states, after the three counts. Each section follows the one before it.
pub const INVERTED_AT: usize = 3;
/// The place of the masks.
pub const MASKS_AT: usize = INVERTED_AT + 1;
/// The place of the values.
pub const VALUES_AT: usize = MASKS_AT + STATES;
/// The place of the links.
pub const LINKS_AT: usize = VALUES_AT + STATES;
/// The place of the samples.
pub const SAMPLES_AT: usize = LINKS_AT + STATES;
/// The place of the edges.
pub const EDGES_AT: usize = SAMPLES_AT + NODES;
/// The place of the marks.
pub const MARKS_AT: usize = EDGES_AT + EDGES;

/// A section: its words, then zeros up to its size.
fn section(size: usize, words: impl Iterator<Item = u32>) -> Vec<u32> {
    let mut section: Vec<u32> = words.collect();
    assert!(section.len() <= size, "more words than the section has");
    section.resize(size, 0);
    section
}

/// The fixed part of a session that holds this trigger, this graph and these marks.
pub fn image(trigger: &Trigger, graph: &Graph, marks: &Relation) -> Vec<u32> {
    let states = || trigger.states.iter();
    let counts = [trigger.states.len(), graph.nodes(), graph.edge_count()];
    let marks_of = |node: usize| {
        let marked = (0..trigger.states.len()).filter(|state| marks.has(*state, node));
        marked.map(|state| 1 << state).sum()
    };
    let image = [
        section(INVERTED_AT, counts.iter().map(|count| *count as u32)),
        section(1, std::iter::once(trigger.inverted_word())),
        section(STATES, states().map(|state| state.mask.into())),
        section(STATES, states().map(|state| state.value.into())),
        section(STATES, states().map(State::link_word)),
        section(NODES, graph.samples.iter().map(|sample| (*sample).into())),
        section(EDGES, graph.edges().map(|(start, end)| (start * NODES + end) as u32)),
        section(NODES, (0..graph.nodes()).map(marks_of)),
    ]
    .concat();
    assert_eq!(image.len(), SESSION, "the sections fill the fixed size");
    image
}

/// The image of what a book holds.
pub fn image_of(book: &Book) -> Vec<u32> {
    image(&book.trigger, &book.graph, &book.standing)
}

/// What a memory in layout holds; nothing where it is not in layout.
pub fn held(memory: &[u32]) -> Option<(Trigger, Graph, Relation)> {
    let fixed = memory.get(..SESSION)?;
    let (states, nodes, edges) = (fixed[0] as usize, fixed[1] as usize, fixed[2] as usize);
    if !(1..=STATES).contains(&states) || nodes > NODES || edges > EDGES {
        return None;
    }
    let inverted = fixed[INVERTED_AT];
    let short = |word: &u32| u16::try_from(*word).ok();
    let masks: Vec<u16> = fixed[MASKS_AT..][..states].iter().map(short).collect::<Option<_>>()?;
    let values: Vec<u16> = fixed[VALUES_AT..][..states].iter().map(short).collect::<Option<_>>()?;
    let links = &fixed[LINKS_AT..][..states];
    let samples: Vec<u16> = fixed[SAMPLES_AT..][..nodes].iter().map(short).collect::<Option<_>>()?;
    let numbers = &fixed[EDGES_AT..][..edges];
    let words = &fixed[MARKS_AT..][..nodes];

    if bits(inverted).any(|bit| bit >= states) {
        return None;
    }
    if links.iter().any(|word| bits(*word).any(|bit| bit >= states)) {
        return None;
    }
    if numbers.windows(2).any(|two| two[0] >= two[1]) {
        return None;
    }
    let trigger = Trigger::new(&masks, &values, links, inverted);
    let mut graph = Graph::new(&samples);
    for number in numbers {
        let (start, end) = (*number as usize / NODES, *number as usize % NODES);
        if start >= nodes || end >= nodes {
            return None;
        }
        graph.ends[start].insert(end);
    }
    let marks = Relation::of(states, nodes, |state, node| words[node] >> state & 1 == 1);
    let admitted = admitted(&trigger, &graph);
    if marks.pairs().any(|(state, node)| !admitted.has(state, node)) {
        return None;
    }
    // Unused places that are not zero, and marks of states that do not exist, are not in the image.
    (image(&trigger, &graph, &marks) == fixed).then_some((trigger, graph, marks))
}
