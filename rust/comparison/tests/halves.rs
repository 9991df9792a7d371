//! The two halves of sets of 32 states. Up to sixteen states the upper half is zero, wherever a set is held; states of the
//! upper half that no link leads to change nothing in the lower one.

use comparison::cases::first_states;
use comparison::random::seed;
use comparison::{Case, Engine, Random, Subject, Twin};
use reference::layout::{INVERTED_AT, LINKS_AT, MARKS_AT, MASKS_AT, SAMPLES_AT, VALUES_AT, held};
use reference::rules::{ROOM, SESSION, STATES};
use reference::standing::standing;

/// The states of half a set.
const HALF: usize = 16;

/// An edge to come or to go, whichever it can.
fn toggle<S: Subject>(subject: S, session: &mut [u32], (start, end): (u32, u32), room: &mut [i32]) -> (bool, Vec<i32>) {
    let mut answer = subject.insert(session, start, end, room);
    if answer.rule() == 12 {
        answer = subject.delete(session, start, end, room);
    }
    assert_eq!(answer.rule(), 0);
    (answer.yes(), room[..answer.changes()].to_vec())
}

/// A case of up to sixteen states with few nodes.
fn narrow(random: &mut Random) -> Case {
    let (states, nodes) = (random.between(1, HALF), random.between(1, 12));
    let (edges, kinds) = (random.below(4 * nodes), random.between(1, 3));
    Case::random(random, states, nodes, edges, kinds)
}

/// An edge between its nodes.
fn edge(random: &mut Random, case: &Case) -> (u32, u32) {
    let nodes = case.samples.len();
    (random.below(nodes) as u32, random.below(nodes) as u32)
}

/// Asserts that a session with up to sixteen states holds nothing in its upper halves, and the marks of its graph.
fn lower_half_alone(session: &[u32], label: &str) {
    let sets = [INVERTED_AT..MASKS_AT, LINKS_AT..SAMPLES_AT, MARKS_AT..SESSION];
    assert!(sets.into_iter().flatten().all(|word| session[word] < 1 << HALF), "{label}: a set has an upper half");
    for at in [MASKS_AT, VALUES_AT, LINKS_AT] {
        assert_eq!(session[at + HALF..at + STATES], [0; STATES - HALF], "{label}: section {at}");
    }
    let (trigger, graph, marks) = held(session).expect("the session is in layout");
    assert_eq!(marks, standing(&trigger, &graph), "{label}: marks");
}

/// Memory of any content is loaded and edited.
fn up_to_sixteen_states<S: Subject>(subject: S, seed: u64) {
    let mut marked = 0;
    for number in 0..1_000 {
        let mut random = Random::new(seed, number);
        let case = narrow(&mut random);
        let label = format!("seed {seed}, case {number}");
        let mut session: Vec<u32> = (0..SESSION).map(|_| random.word() as u32).collect();
        let mut room = vec![0; ROOM];
        assert_eq!(subject.load(&mut session, &case, &mut room).rule(), 0, "{label}");
        lower_half_alone(&session, &label);
        for _ in 0..6 {
            toggle(subject, &mut session, edge(&mut random, &case), &mut room);
            lower_half_alone(&session, &label);
        }
        marked += usize::from(session[MARKS_AT..].iter().any(|word| *word != 0));
    }
    assert!(marked > 500, "only {marked} sessions have a mark");
}

#[test]
fn the_upper_half_stays_zero() {
    let seed = seed("the_upper_half_stays_zero");
    up_to_sixteen_states(Engine, seed);
    up_to_sixteen_states(Twin, seed);
}

/// The case with orphans after its states, up to so many, each linked to one state, or to none.
fn with_orphans(random: &mut Random, case: &Case, states: usize) -> Case {
    let mut wide = case.clone();
    for number in case.masks.len()..states {
        let links = if random.once_in(3) { 0 } else { 1 << random.below(states) };
        wide.state(0x0003, random.below(4) as u16, links);
        wide.inverted |= u32::from(random.once_in(3)) << number;
    }
    wide
}

/// The changes of the first so many states.
fn changes_below(changes: &[i32], states: usize) -> Vec<i32> {
    let number = |change: &&i32| change.unsigned_abs() as usize % 64;
    changes.iter().filter(|change| number(change) <= states).copied().collect()
}

/// A trigger of up to sixteen states, and the same with orphans after them: the same marks, changes and firing.
fn orphans_of_the_upper_half<S: Subject>(subject: S, seed: u64) {
    // How often states of the lower half and of the upper one changed.
    let mut changed = [0; 2];
    for number in 0..1_000 {
        let mut random = Random::new(seed, number);
        let case = narrow(&mut random);
        let (states, total) = (case.masks.len(), random.between(HALF + 1, STATES));
        let wide = with_orphans(&mut random, &case, total);
        let label = format!("seed {seed}, case {number}: {states} states of {total}");
        let (mut session, mut wide_session, mut room) = (vec![0; SESSION], vec![0; SESSION], vec![0; ROOM]);
        let narrow_answer = subject.load(&mut session, &case, &mut room);
        let listed = room[..narrow_answer.changes()].to_vec();
        let answer = subject.load(&mut wide_session, &wide, &mut room);
        assert_eq!((answer.rule(), answer.yes()), (0, narrow_answer.yes()), "{label}");
        assert_eq!(changes_below(&room[..answer.changes()], states), listed, "{label}");
        for _ in 0..6 {
            let edge = edge(&mut random, &case);
            let (fires, list) = toggle(subject, &mut session, edge, &mut room);
            let (wide_fires, wide_list) = toggle(subject, &mut wide_session, edge, &mut room);
            assert_eq!(wide_fires, fires, "{label}, edge {edge:?}");
            assert_eq!(changes_below(&wide_list, states), list, "{label}, edge {edge:?}");
            let marks = wide_session[MARKS_AT..].iter().map(|word| word & first_states(states));
            assert!(marks.eq(session[MARKS_AT..].iter().copied()), "{label}, edge {edge:?}");
            changed[0] += list.len();
            changed[1] += wide_list.len() - list.len();
        }
    }
    assert!(changed.iter().all(|count| *count > 1_000), "{changed:?}");
}

#[test]
fn orphans_change_nothing_below_them() {
    let seed = seed("orphans_change_nothing_below_them");
    orphans_of_the_upper_half(Engine, seed);
    orphans_of_the_upper_half(Twin, seed);
}
