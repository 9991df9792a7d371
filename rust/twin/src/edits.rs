//! Insertion and deletion.

use crate::grow::grow;
use crate::incoming::{Edges, out_of};
use crate::layout::{
    EDGES, EDGES_AT, HALF, MARKS_AT, NODES, ROOM, SAMPLES_AT, SESSION, STATES, Shape, is_wide, shape, union,
};
use crate::refine::{Waiting, refine, uncarried};
use crate::report::{Changes, NodeSet, accepted};

/// Rules 3, 10 and 11, and the edge's number and place: `Ok` where it is held.
type Looked<const WIDTH: usize> = (Shape<WIDTH>, usize, u32, Result<usize, usize>);

fn look<const WIDTH: usize>(session: &[u32], start: u32, end: u32, room: usize) -> Result<Looked<WIDTH>, u64> {
    if session.len() < SESSION || room < ROOM {
        return Err(3);
    }
    let shape = shape(session).ok_or(10u64)?;
    if start as usize >= shape.nodes || end as usize >= shape.nodes {
        return Err(11);
    }
    let number = start * 512 + end;
    let place = session[EDGES_AT..][..shape.edges].binary_search(&number);
    Ok((shape, start as usize, number, place))
}

/// The sections that an edit works on: samples, edges, marks.
fn sections(session: &mut [u32], edges: usize) -> (&[u32; NODES], &[u32], &mut [u32; NODES]) {
    let (front, marks) = session[..SESSION].split_at_mut(MARKS_AT);
    let (front, numbers) = front.split_at(EDGES_AT);
    let samples = front[SAMPLES_AT..].first_chunk().expect("512 samples");
    let marks = marks.first_chunk_mut().expect("512 mark words");
    (samples, &numbers[..edges], marks)
}

/// Inserts an edge.
pub fn insert(session: &mut [u32], start: u32, end: u32, changes: &mut [i32]) -> u64 {
    if is_wide(session) {
        insert_in::<STATES>(session, start, end, changes)
    } else {
        insert_in::<HALF>(session, start, end, changes)
    }
}

fn insert_in<const WIDTH: usize>(session: &mut [u32], start: u32, end: u32, changes: &mut [i32]) -> u64 {
    let (shape, from, number, place) = match look::<WIDTH>(session, start, end, changes.len()) {
        Ok(looked) => looked,
        Err(rule) => return rule,
    };
    let place = match place {
        Ok(_) => return 12,
        Err(_) if shape.edges == EDGES => return 13,
        Err(place) => EDGES_AT + place,
    };
    session.copy_within(place..EDGES_AT + shape.edges, place + 1);
    session[place] = number;
    session[2] += 1;

    let states = &shape.states;
    let (samples, numbers, marks) = sections(session, shape.edges + 1);
    let targets = states.admitting(samples[end as usize]);
    let mut seeds = 0;
    for (state, links) in states.links.iter().enumerate() {
        seeds |= u32::from(links & targets != 0) << state;
    }
    seeds &= !marks[from] & states.admitting(samples[from]);
    if seeds == 0 {
        return accepted(states.fires(shape.marked), 0, 0);
    }

    let callers = states.callers();
    let mut edges = Edges::new(numbers);
    let mut trials = grow(states, &callers, &mut edges, samples, marks, from, seeds);
    let nodes = &trials.nodes[..trials.found];
    let tried = nodes.iter().map(|node| trials.table[*node as usize].count_ones()).sum();
    let mut waiting = Waiting::new();
    for node in nodes {
        waiting.add(*node as usize);
    }
    // Where no trial is left at the edge's start, none is left anywhere.
    let mut alive = true;
    let table = &mut trials.table;
    refine(states, &callers, &mut edges, marks, table, &mut waiting, |node, left| {
        alive = node != from || left != 0;
        alive
    });
    if !alive {
        return accepted(states.fires(shape.marked), tried, 0);
    }

    let mut began = NodeSet::default();
    for node in nodes {
        began.add(*node as usize);
    }
    let mut list = Changes::new(changes);
    let mut marked = shape.marked;
    began.each(|node| {
        let gained = table[node];
        marks[node] |= gained;
        marked |= gained;
        list.add(node, gained, 1);
    });
    accepted(states.fires(marked), tried, list.count)
}

/// Deletes an edge.
pub fn delete(session: &mut [u32], start: u32, end: u32, changes: &mut [i32]) -> u64 {
    if is_wide(session) {
        delete_in::<STATES>(session, start, end, changes)
    } else {
        delete_in::<HALF>(session, start, end, changes)
    }
}

fn delete_in<const WIDTH: usize>(session: &mut [u32], start: u32, end: u32, changes: &mut [i32]) -> u64 {
    let (shape, from, _, place) = match look::<WIDTH>(session, start, end, changes.len()) {
        Ok(looked) => looked,
        Err(rule) => return rule,
    };
    let Ok(place) = place else { return 14 };
    let last = EDGES_AT + shape.edges;
    session.copy_within(EDGES_AT + place + 1..last, EDGES_AT + place);
    session[last - 1] = 0;
    session[2] -= 1;

    let states = &shape.states;
    let (_, numbers, marks) = sections(session, shape.edges - 1);
    let lost = uncarried(states, out_of(numbers, from), marks[from], |node| marks[node]);
    if lost == 0 {
        return accepted(states.fires(shape.marked), 0, 0);
    }

    let before = *marks;
    let callers = states.callers();
    let mut edges = Edges::new(numbers);
    let mut waiting = Waiting::new();
    waiting.add(from);
    let mut ceased = NodeSet::default();
    let settled = [0; NODES];
    refine(states, &callers, &mut edges, &settled, marks, &mut waiting, |node, _| {
        ceased.add(node);
        true
    });
    let mut list = Changes::new(changes);
    ceased.each(|node| list.add(node, before[node] & !marks[node], -1));
    accepted(states.fires(union(marks)), list.count as u32, list.count)
}
