//! Places of the session's sections, and the layout test.

use crate::states::States;
use std::hint::black_box;

pub const STATES: usize = 32;
pub const NODES: usize = 512;
pub const EDGES: usize = 2048;
pub const ROOM: usize = NODES * STATES;
pub const INVERTED_AT: usize = 3;
pub const MASKS_AT: usize = INVERTED_AT + 1;
pub const VALUES_AT: usize = MASKS_AT + STATES;
pub const LINKS_AT: usize = VALUES_AT + STATES;
pub const SAMPLES_AT: usize = LINKS_AT + STATES;
pub const EDGES_AT: usize = SAMPLES_AT + NODES;
pub const MARKS_AT: usize = EDGES_AT + EDGES;
pub const SESSION: usize = MARKS_AT + NODES;

/// The states of half a set. All calls are compiled twice, for triggers of no more states than this and for others, so
/// that the first compare half words, and no place of a state that they can not have.
pub const HALF: usize = 16;

/// Whether a session says that it has more states than half a set.
pub fn is_wide(session: &[u32]) -> bool {
    session.first().is_some_and(|count| *count as usize > HALF)
}

/// The counts of a session in layout, its states, and the states that have a mark.
pub struct Shape<const WIDTH: usize> {
    pub states: States<WIDTH>,
    pub nodes: usize,
    pub edges: usize,
    pub marked: u32,
}

/// The bitwise union of words.
pub fn union(words: &[u32]) -> u32 {
    words.iter().fold(0, |all, word| all | word)
}

/// The layout test: nothing where the memory, of the fixed size at least, is not in layout, or has more states than the
/// width.
pub fn shape<const WIDTH: usize>(session: &[u32]) -> Option<Shape<WIDTH>> {
    let fixed: &[u32; SESSION] = session.first_chunk()?;
    let (count, nodes, edges) = (fixed[0] as usize, fixed[1] as usize, fixed[2] as usize);
    if count == 0 || count > WIDTH || nodes > NODES || edges > EDGES {
        return None;
    }
    let section = |at: usize, size: usize, used: usize| fixed[at..at + size].split_at(used);
    let (masks, no_masks) = section(MASKS_AT, STATES, count);
    let (values, no_values) = section(VALUES_AT, STATES, count);
    let (links, no_links) = section(LINKS_AT, STATES, count);
    let (samples, no_samples) = section(SAMPLES_AT, NODES, nodes);
    let (numbers, no_numbers) = section(EDGES_AT, EDGES, edges);
    let (marks, no_marks) = section(MARKS_AT, NODES, nodes);

    let words = union(masks) | union(values) | union(samples);
    let unused = [no_masks, no_values, no_links, no_samples, no_numbers, no_marks];
    let unused = unused.iter().fold(0, |all, words| all | union(words));
    let states = States::read(fixed, count);
    let marked = union(marks);
    let sets = (union(links) | marked | fixed[INVERTED_AT]) & !states.all();
    let fault = words >> 16 | unused | sets | edge_fault(numbers, nodes);
    if fault != 0 || mark_fault(&states, samples, marks, marked) {
        return None;
    }
    Some(Shape { states, nodes, edges, marked })
}

/// Not zero where an edge names a node that is not there, or edges do not ascend strictly.
fn edge_fault(numbers: &[u32], nodes: usize) -> u32 {
    let Some(last) = numbers.last() else { return 0 };
    // Numbers below 2 to the 18th: their differences keep the sign.
    let end_fault = |number: u32| (nodes as u32).wrapping_sub(1 + (number & 511));
    let (mut wide, mut signs) = (*last, end_fault(*last));
    for (number, next) in numbers.iter().zip(&numbers[1..]) {
        wide |= number;
        signs |= end_fault(*number) | next.wrapping_sub(*number).wrapping_sub(1);
    }
    wide >> 18 | signs >> 31 | u32::from(*last as usize >= nodes * 512)
}

/// Whether a mark is at a pair that is not admitted. Samples are known to have 16 bits.
fn mark_fault<const WIDTH: usize>(states: &States<WIDTH>, samples: &[u32], marks: &[u32], marked: u32) -> bool {
    if marked == 0 {
        return false;
    }
    let short = half_words(samples, 0);
    (0..WIDTH).step_by(HALF).any(|first| {
        let marked = marked >> first & 0xFFFF;
        marked != 0 && half_fault(states, first, &short, &half_words(marks, first), marked, samples.len())
    })
}

/// The half words from a bit on, so that a vector has more of them.
fn half_words(words: &[u32], bit: usize) -> [u16; NODES] {
    let mut short = [0; NODES];
    for (short, word) in short.iter_mut().zip(words) {
        *short = (*word >> bit) as u16;
    }
    short
}

/// The same of the marks of half of the states, from the first one on.
fn half_fault<const WIDTH: usize>(
    states: &States<WIDTH>,
    first: usize,
    samples: &[u16; NODES],
    marks: &[u16; NODES],
    marked: u32,
    nodes: usize,
) -> bool {
    let nodes = nodes.next_multiple_of(16);
    // For each node the states with a mark anywhere whose value agrees with its sample.
    let mut agreeing = [0; NODES];
    let mut left = marked;
    while left != 0 {
        // Four states at a time; where fewer are left, the first one is tested again.
        let group: [usize; 4] = std::array::from_fn(|_| {
            let state = left.trailing_zeros() as usize % HALF;
            left &= left.wrapping_sub(1);
            state
        });
        let masks = group.map(|state| states.masks[first + state]);
        // A compiler that sees the mask in it compares with one operation more.
        let wanted = black_box(group.map(|state| states.values[first + state] & states.masks[first + state]));
        let bits = group.map(|state| 1 << state);
        for (sample, word) in samples[..nodes].iter().zip(&mut agreeing[..nodes]) {
            let bit = |place: usize| if sample & masks[place] == wanted[place] { bits[place] } else { 0 };
            *word |= bit(0) | bit(1) | bit(2) | bit(3);
        }
    }
    // Turned states admit where they do not agree: one operation for all states of a node.
    let turned = (states.turned >> first) as u16;
    let words = marks[..nodes].iter().zip(&agreeing[..nodes]);
    words.fold(0, |fault, (word, agreeing)| fault | word & !(agreeing ^ turned)) != 0
}
