//! Sessions that are too short, or have words that nobody but the engine should have written.
//!
//! Where a damaged session is not in layout, every call is refused with 10. Where it is, it holds another trigger,
//! graph or marks: then the questions read the marks held, and an edit does what is fixed of it for marks that may not be
//! those of their graph: firing is of the marks held, or left, of the states reached from State One. So it is with sessions
//! saved while inverted states that are blank, that is of mask zero, admitted nothing.

use comparison::cases::first_states;
use comparison::random::seed;
use comparison::subject::{accepted, answered, refused};
use comparison::{Case, Engine, Random, Subject, Twin};
use reference::changes::changes;
use reference::firing::marks_fire;
use reference::layout::{EDGES_AT, INVERTED_AT, LINKS_AT, MARKS_AT, MASKS_AT, SAMPLES_AT, VALUES_AT, held, image};
use reference::rules::{EDGES, NODES, ROOM, SESSION, STATES, delete_rules, insert_rules, question_rules};
use reference::standing::{admitted, standing, supported_part};
use reference::trials::trial_set;
use reference::walk::walk_order;
use reference::{Graph, Relation, Report, State, Trigger};
use std::collections::BTreeSet;
use trigger_engine::lent::Answer;

type Held = (Trigger, Graph, Relation);

/// Makes every call on a session and compares each with what its layout wants. Gives whether it was in layout.
fn all_calls<S: Subject>(subject: S, session: &[u32], random: &mut Random, label: &str) -> bool {
    let held = held(session);
    let nodes = session[1].min(600);
    let any = |random: &mut Random| (random.below(nodes as usize + 1)) as u32;
    let (state, node) = (random.below(STATES + 2) as u32, any(random));

    let answer = subject.matches(session, state, node);
    let wanted = match &held {
        Some((trigger, graph, marks)) => {
            answered(question_rules(trigger, graph, state, node).map(|()| marks.has(state as usize - 1, node as usize)))
        }
        None => refused(10),
    };
    assert_eq!(answer, wanted, "{label}: matches({state}, {node})");

    let answer = subject.fires(session);
    let wanted = match &held {
        Some((trigger, graph, marks)) => answered(Ok(marks_fire(trigger, graph, marks))),
        None => refused(10),
    };
    assert_eq!(answer, wanted, "{label}: fires");

    let mut states = [0xEE; STATES];
    let answer = subject.order(session, &mut states);
    match &held {
        Some((trigger, _, _)) => {
            let order = walk_order(trigger);
            assert_eq!(answer, Answer((order.len() as u64) << 40), "{label}: order");
            assert_eq!(states[..order.len()], order, "{label}: order");
        }
        None => assert_eq!((answer, states), (refused(10), [0xEE; STATES]), "{label}: order"),
    }

    for inserts in [true, false] {
        let mut edge = (any(random), any(random));
        if let Some((_, graph, _)) = &held
            && random.once_in(2)
        {
            let edges: Vec<(usize, usize)> = graph.edges().collect();
            if !edges.is_empty() {
                let (start, end) = *random.pick(&edges);
                edge = (start as u32, end as u32);
            }
        }
        edit(subject, session, held.as_ref(), inserts, edge, label);
    }
    held.is_some()
}

/// Makes an edit on a copy of a session.
fn edit<S: Subject>(
    subject: S,
    before: &[u32],
    held: Option<&Held>,
    inserts: bool,
    (start, end): (u32, u32),
    label: &str,
) {
    let label = format!("{label}: edit {inserts} ({start}, {end})");
    let mut session = before.to_vec();
    let mut room: Vec<i32> = vec![0x5EAF; ROOM];
    let answer = if inserts {
        subject.insert(&mut session, start, end, &mut room)
    } else {
        subject.delete(&mut session, start, end, &mut room)
    };
    let Some((trigger, graph, marks)) = held else {
        assert_eq!(answer, refused(10), "{label}");
        assert!(session == before && room.iter().all(|place| *place == 0x5EAF), "{label}: written");
        return;
    };
    let rules = if inserts { insert_rules } else { delete_rules };
    if let Err(rule) = rules(graph, ROOM, start, end) {
        assert_eq!(answer, refused(rule), "{label}");
        assert!(session == before && room.iter().all(|place| *place == 0x5EAF), "{label}: written");
        return;
    }

    let edge = (start as usize, end as usize);
    let mut after = graph.clone();
    if inserts {
        after.ends[edge.0].insert(edge.1);
    } else {
        after.ends[edge.0].remove(&edge.1);
    }
    let left = left_marks(trigger, &session);
    assert_eq!(session[..SESSION], image(trigger, &after, &left), "{label}: trigger, samples or edges");
    assert_eq!(session[SESSION..], before[SESSION..], "{label}: past the fixed size");
    let list = changes(marks, &left);
    assert_eq!(room[..list.len()], list, "{label}: changes");
    assert!(room[list.len()..].iter().all(|place| *place == 0x5EAF), "{label}: past the list");
    assert!(list.iter().all(|change| (*change > 0) == inserts), "{label}: an insertion only sets, a deletion clears");
    let admitted = admitted(trigger, graph);
    assert!(left.pairs().all(|(state, node)| admitted.has(state, node)), "{label}: a mark that is not admitted");

    let mut trials = answer.trials() as usize;
    if *marks == standing(trigger, graph) {
        assert_eq!(left, standing(trigger, &after), "{label}: marks");
        if inserts {
            trials = trial_set(trigger, &after, marks, edge).size();
        }
    }
    if inserts {
        assert!(trials <= admitted.size(), "{label}: more trials than admitted pairs");
    } else {
        trials = list.len();
    }
    let report = Report { fires: marks_fire(trigger, &after, &left), trials, changes: list };
    assert_eq!(answer, accepted(&report), "{label}: answer");
}

/// The marks that a session holds for its states.
fn left_marks(trigger: &Trigger, session: &[u32]) -> Relation {
    let nodes = session[1] as usize;
    Relation::of(trigger.states.len(), nodes, |state, node| session[MARKS_AT + node] >> state & 1 == 1)
}

/// A loaded session with a rest past its fixed size.
fn loaded(case: &Case) -> Vec<u32> {
    let mut session = vec![0xDEAD_BEEF; SESSION + 5];
    let answer = Engine.load(&mut session, case, &mut vec![0; ROOM]);
    assert_eq!(answer.rule(), 0);
    session
}

/// Another value for a word: a bit more or less, a neighbour, one too large, or anything.
fn other(random: &mut Random, word: u32) -> u32 {
    match random.below(8) {
        0..=1 => word ^ 1 << random.below(16),
        2..=3 => word ^ 1 << random.below(32),
        4 => word.wrapping_add(1),
        5 => word.wrapping_sub(1),
        6 => random.below(1 << 18) as u32,
        _ => random.word() as u32,
    }
}

fn sessions(random: &mut Random) -> Vec<Vec<u32>> {
    let small = [(3, 6, 12), (1, 0, 0), (9, 129, 130), (17, 20, 60)];
    let large = [(16, NODES, EDGES), (STATES, NODES, EDGES), (5, NODES, 700), (STATES, 40, 1600)];
    let sizes = [small, large].concat();
    sizes.iter().map(|(states, nodes, edges)| loaded(&Case::random(random, *states, *nodes, *edges, 3))).collect()
}

#[test]
fn every_word_damaged() {
    let seed = seed("every_word_damaged");
    let mut random = Random::new(seed, 0);
    let (mut inside, mut outside) = (0, 0);
    for (number, session) in sessions(&mut random).iter().enumerate() {
        assert!(all_calls(Engine, session, &mut random, &format!("session {number} as loaded")));
        for place in 0..session.len() {
            let mut session = session.clone();
            session[place] = other(&mut random, session[place]);
            let label = format!("seed {seed}, session {number}, word {place} is {}", session[place]);
            if all_calls(Engine, &session, &mut random, &label) {
                inside += 1;
            } else {
                outside += 1;
            }
        }
    }
    assert!(inside > 500 && outside > 5_000, "{inside} in layout, {outside} not");
}

/// Few states, nodes and edges, where damage often stays in layout: marks that are not those of their graph.
#[test]
fn small_sessions_damaged() {
    let seed = seed("small_sessions_damaged");
    let (mut inside, mut outside) = (0, 0);
    for number in 0..12_000 {
        let mut random = Random::new(seed, number);
        let (states, nodes) = (random.between(1, 4), random.between(1, 6));
        let edges = random.below(nodes * nodes + 1);
        let mut session = loaded(&Case::random(&mut random, states, nodes, edges, 2));
        for _ in 0..random.between(1, 2) {
            let counts = [(0, INVERTED_AT), (INVERTED_AT, 1)];
            let trigger = [MASKS_AT, VALUES_AT, LINKS_AT].map(|at| (at, states));
            let graph = [(SAMPLES_AT, nodes), (EDGES_AT, edges + 1), (MARKS_AT, nodes)];
            let used = [counts.as_slice(), &trigger, &graph].concat();
            let section = if random.once_in(2) { (MARKS_AT, nodes) } else { *random.pick(&used) };
            let place = section.0 + random.below(section.1);
            session[place] = match random.below(3) {
                0 => other(&mut random, session[place]),
                1 => session[place] ^ 1 << random.below(states),
                _ => session[place] & random.word() as u32,
            };
        }
        let label = format!("seed {seed}, case {number}");
        let in_layout = all_calls(Engine, &session, &mut random, &label);
        all_calls(Twin, &session, &mut random, &label);
        if in_layout {
            inside += 1;
        } else {
            outside += 1;
        }
    }
    assert!(inside > 2_000 && outside > 2_000, "{inside} in layout, {outside} not");
}

/// Two neighbouring edges exchanged, equal, or beyond the nodes; counts that are off by one.
#[test]
fn edges_and_counts_damaged() {
    let seed = seed("edges_and_counts_damaged");
    for number in 0..600 {
        let mut random = Random::new(seed, number);
        let nodes = random.between(2, NODES);
        let edges = random.between(2, (2 * nodes).min(EDGES - 1));
        let states = random.between(1, STATES - 1);
        // A state that is not there: the next one half of the time, else any.
        let past = if random.once_in(2) { states } else { random.between(states, 31) };
        let whole = loaded(&Case::random(&mut random, states, nodes, edges, 3));
        let held = whole[2] as usize;
        let place = EDGES_AT + random.below(held - 1);
        let label = format!("seed {seed}, case {number}");
        let mut damaged = |change: &dyn Fn(&mut Vec<u32>)| {
            let mut session = whole.clone();
            change(&mut session);
            all_calls(Engine, &session, &mut random, &label)
        };
        assert!(!damaged(&|session| session.swap(place, place + 1)));
        assert!(!damaged(&|session| session[place + 1] = session[place]));
        assert!(!damaged(&|session| session[EDGES_AT + held - 1] = (nodes * NODES) as u32));
        assert!(!damaged(&|session| session[2] += 1));
        assert!(!damaged(&|session| session[2] -= 1));
        assert!(!damaged(&|session| session[2] = EDGES as u32 + 1));
        assert!(!damaged(&|session| session[1] = NODES as u32 + 1));
        assert!(!damaged(&|session| session[0] = 0));
        assert!(!damaged(&|session| session[0] = STATES as u32 + 1));
        assert!(!damaged(&|session| session[0] = u32::MAX));
        assert!(!damaged(&|session| session[INVERTED_AT] |= 1 << past));
        assert!(!damaged(&|session| session[LINKS_AT + states - 1] |= 1 << past));
        assert!(!damaged(&|session| session[MARKS_AT + nodes - 1] |= 1 << past));
        assert!(!damaged(&|session| session[MASKS_AT + past] = 1));
        assert!(!damaged(&|session| session[VALUES_AT + past] = 1));
        assert!(!damaged(&|session| session[LINKS_AT + past] = 1));
        assert!(!damaged(&|session| session[MASKS_AT] |= 1 << 16));
        assert!(!damaged(&|session| session[SAMPLES_AT] |= 1 << 31));
        // One state or one node more, with nothing at it, is another session in layout.
        assert!(damaged(&|session| session[0] += 1));
        assert_eq!(damaged(&|session| session[1] += 1), nodes < NODES);
    }
}

/// A state turned round is not admitted any more where it had a mark, and is where it had none; a blank one is admitted
/// everywhere, as before. With its marks gone, or put where it is admitted now, the session is in layout again.
#[test]
fn inverted_word_damaged() {
    let seed = seed("inverted_word_damaged");
    // States with a mark, blank ones with a mark, states without, and those that are not admitted somewhere when turned.
    let mut counts = [0; 4];
    for number in 0..1_500 {
        let mut random = Random::new(seed, number);
        let (states, nodes) = (random.between(1, STATES), *random.pick(&[1, 2, 7, 16, 40, NODES]));
        let edges = random.below(4 * nodes);
        let mut case = Case::random(&mut random, states, nodes, edges, 3);
        // Unlinked states stand wherever they are admitted.
        case.links.iter_mut().filter(|_| random.once_in(3)).for_each(|links| *links = 0);
        let whole = loaded(&case);
        let state = random.below(states);
        let label = format!("seed {seed}, case {number}, state {state}");
        // Whether the session is in layout with the state turned round and its marks at these nodes.
        let mut turned = |marked: &dyn Fn(usize) -> bool| {
            let mut session = whole.clone();
            session[INVERTED_AT] ^= 1 << state;
            for node in 0..nodes {
                session[MARKS_AT + node] &= !(1 << state);
                session[MARKS_AT + node] |= u32::from(marked(node)) << state;
            }
            let in_layout = all_calls(Engine, &session, &mut random, &label);
            assert_eq!(in_layout, all_calls(Twin, &session, &mut random, &label), "{label}");
            in_layout
        };
        let marked = |node: usize| whole[MARKS_AT + node] >> state & 1 == 1;
        let (has_mark, blank) = ((0..nodes).any(marked), case.masks[state] == 0);
        assert_eq!(turned(&marked), !has_mark || blank, "{label}");
        assert!(turned(&|_| false), "{label}");
        // Marks at every pair that is admitted now; with one more, at a pair that is not, out of layout again.
        let now = State::new(case.masks[state], case.values[state], 0, !case.is_inverted(state));
        let admitted = |node: usize| now.admits(case.samples[node]);
        assert!(turned(&admitted), "{label}");
        let stray = (0..nodes).rev().find(|node| !admitted(*node));
        if let Some(stray) = stray {
            assert!(!turned(&|node| admitted(node) || node == stray), "{label}");
        }
        let kinds = [has_mark && !blank, has_mark && blank, !has_mark, stray.is_some()];
        counts.iter_mut().zip(kinds).for_each(|(count, kind)| *count += usize::from(kind));
    }
    assert!(counts.iter().all(|count| *count > 100), "{counts:?}");
}

/// A session written word by word: two nodes, 0000 and 00FF, and one state without links, which is inverted, has this mask
/// and the value 00FF.
fn one_inverted_state(mask: u32, marks: [u32; 2]) -> Vec<u32> {
    let mut session = vec![0; SESSION];
    session[..=MASKS_AT].copy_from_slice(&[1, 2, 0, 0b1, mask]);
    session[VALUES_AT] = 0x00FF;
    session[SAMPLES_AT..][..2].copy_from_slice(&[0x0000, 0x00FF]);
    session[MARKS_AT..][..2].copy_from_slice(&marks);
    session
}

/// A blank inverted state may have a mark at each node; with one bit in its mask, only where the sample differs in it.
fn marks_at_one_inverted_state<S: Subject>(subject: S) {
    let mut random = Random::new(3, 3);
    for marks in [[0, 0], [0, 1], [1, 0], [1, 1]] {
        let label = format!("marks {marks:?}");
        let blank = one_inverted_state(0, marks);
        assert_eq!(subject.matches(&blank, 1, 0), answered(Ok(marks[0] == 1)), "{label}");
        assert_eq!(subject.matches(&blank, 1, 1), answered(Ok(marks[1] == 1)), "{label}");
        assert_eq!(subject.fires(&blank), answered(Ok(marks != [0, 0])), "{label}");
        assert!(all_calls(subject, &blank, &mut random, &label));
        for bit in 0..8 {
            let in_layout = marks[1] == 0;
            let wanted = if in_layout { answered(Ok(marks[0] == 1)) } else { refused(10) };
            assert_eq!(subject.fires(&one_inverted_state(1 << bit, marks)), wanted, "{label}, bit {bit}");
        }
    }
    // The marks of the graph: an edge changes none of them, for the state has no link.
    let (mut session, mut room) = (one_inverted_state(0, [1, 1]), vec![7; ROOM]);
    let unchanged = accepted(&Report { fires: true, trials: 0, changes: vec![] });
    assert_eq!(subject.insert(&mut session, 0, 1, &mut room), unchanged);
    assert_eq!(subject.delete(&mut session, 0, 1, &mut room), unchanged);
    assert_eq!(session, one_inverted_state(0, [1, 1]));
}

#[test]
fn marks_of_a_blank_inverted_state() {
    marks_at_one_inverted_state(Engine);
    marks_at_one_inverted_state(Twin);
}

/// State 1 is blank and inverted and linked to state 2; state 2 is 7 and linked to state 1; state 3 is 8 and has no link.
/// Node 0 is 7, node 1 is 8, with an edge each way.
fn blank_in_a_ring() -> Case {
    let mut case = Case { samples: vec![7, 8], ..Case::default() };
    case.inverted_state(0, 0x00FF, 0b010);
    case.state(0xFFFF, 7, 0b001);
    case.state(0xFFFF, 8, 0b000);
    case.edges(&BTreeSet::from([(0, 1), (1, 0)]));
    case
}

/// States 1 and 2 stand by each other, state 2 at node 0 and state 1 at node 1, state 3 by itself at node 1. While state 1
/// admitted nothing, state 3 had the only mark: such a session is in layout, and a fresh load has the other marks too.
fn saved_with_a_blank_inverted_state<S: Subject>(subject: S) {
    let case = blank_in_a_ring();
    let (mut fresh, mut room) = (vec![9; SESSION], vec![7; ROOM]);
    let report = Report { fires: true, trials: 4, changes: vec![2, 65, 67] };
    assert_eq!(subject.load(&mut fresh, &case, &mut room), accepted(&report));
    assert_eq!(fresh[INVERTED_AT..][..4], [0b001, 0x0000, 0xFFFF, 0xFFFF], "the inversion is held as given");
    assert_eq!(fresh[MARKS_AT..][..2], [0b010, 0b101]);

    let mut saved = fresh.clone();
    saved[MARKS_AT..][..2].copy_from_slice(&[0b000, 0b100]);
    for (state, node) in (1..=3).flat_map(|state| [(state, 0), (state, 1)]) {
        assert_eq!(subject.matches(&saved, state, node), answered(Ok((state, node) == (3, 1))), "({state}, {node})");
    }
    assert_eq!(subject.fires(&saved), answered(Ok(false)));
    assert_eq!(subject.order(&saved, &mut [0; STATES]), Answer(3 << 40));
    assert!(all_calls(subject, &saved, &mut Random::new(4, 4), "saved"));
    let held = held(&saved);
    for edge in [(0, 0), (0, 1), (1, 0), (1, 1)] {
        let present = edge.0 != edge.1;
        edit(subject, &saved, held.as_ref(), !present, edge, "saved");
    }

    assert_eq!(subject.load(&mut saved, &case, &mut room), accepted(&report));
    assert_eq!(saved, fresh);
}

#[test]
fn a_session_saved_with_a_blank_inverted_state() {
    saved_with_a_blank_inverted_state(Engine);
    saved_with_a_blank_inverted_state(Twin);
}

/// The marks of a graph while blank inverted states admitted nothing: without theirs, and without what stood only by them.
fn former_marks(trigger: &Trigger, graph: &Graph) -> Relation {
    let mut former = admitted(trigger, graph);
    for (state, node) in former.places() {
        let State { mask, inverted, .. } = trigger.states[state];
        if mask == 0 && inverted {
            former.remove(state, node);
        }
    }
    supported_part(trigger, graph, former)
}

/// Each is in layout, and a fresh load of the same trigger and graph has the marks that it lacks.
#[test]
fn sessions_saved_with_blank_inverted_states() {
    let seed = seed("sessions_saved_with_blank_inverted_states");
    // Sessions with a mark less of a blank inverted state, and of another one.
    let (mut own, mut others) = (0, 0);
    for number in 0..3_000 {
        let mut random = Random::new(seed, number);
        let (states, nodes) = (random.between(1, 5), random.between(1, 10));
        let edges = random.below(3 * nodes + 1);
        let case = Case::random(&mut random, states, nodes, edges, 2);
        let label = format!("seed {seed}, case {number}");
        let fresh = loaded(&case);
        let (trigger, graph, marks) = held(&fresh).expect("a load leaves a session in layout");
        assert_eq!(marks, standing(&trigger, &graph), "{label}");

        let former = former_marks(&trigger, &graph);
        let mut saved = fresh.clone();
        saved[..SESSION].copy_from_slice(&image(&trigger, &graph, &former));
        assert!(all_calls(Engine, &saved, &mut random, &label), "{label}");
        assert!(all_calls(Twin, &saved, &mut random, &label), "{label}");
        let lacks = |blank: bool| {
            let mut pairs = marks.pairs().filter(|(state, _)| case.is_blank_inverted(*state) == blank);
            pairs.any(|(state, node)| !former.has(state, node))
        };
        own += usize::from(lacks(true));
        others += usize::from(lacks(false));
        assert_eq!(Engine.load(&mut saved, &case, &mut vec![0; ROOM]).rule(), 0, "{label}");
        assert_eq!(saved, fresh, "{label}");
    }
    assert!(own > 300 && others > 100, "{own} lack a mark of a blank inverted state, {others} one of another state");
}

/// A session written word by word: states of mask zero with these links, one node with these marks, and its edge to
/// itself or none.
fn one_node(links: &[u32], marks: u32, edges: u32) -> Vec<u32> {
    let mut session = vec![0; SESSION];
    session[..3].copy_from_slice(&[links.len() as u32, 1, edges]);
    session[LINKS_AT..][..links.len()].copy_from_slice(links);
    session[MARKS_AT] = marks;
    session
}

/// A chain of so many states from State One on, and two orphans, the first linked to the second and that to State One.
fn chain_and_orphans(reached: usize) -> Vec<u32> {
    let chain = (1..reached).map(|next| 1 << next);
    chain.chain([0, 1 << (reached + 1), 1]).collect()
}

/// Of marks that are no simulation too, the trigger fires exactly where each state of the chain has one.
fn firing_by_marks_held<S: Subject>(subject: S) {
    for (marks, edges) in (0..32).flat_map(|marks| [(marks, 0), (marks, 1)]) {
        let session = one_node(&chain_and_orphans(3), marks, edges);
        let label = format!("marks {marks:#07b}, {edges} edges");
        assert_eq!(subject.fires(&session), answered(Ok(marks & 0b00111 == 0b00111)), "{label}");
        edit(subject, &session, held(&session).as_ref(), edges == 0, (0, 0), &label);
    }
    // Every state but one has a mark.
    let chains = (1..STATES - 1).flat_map(|reached| (0..reached + 2).map(move |without| (reached, without)));
    for (reached, without) in chains {
        let marks = (0..reached + 2).filter(|state| *state != without).map(|state| 1 << state).sum();
        let session = one_node(&chain_and_orphans(reached), marks, 0);
        let wanted = answered(Ok(without >= reached));
        assert_eq!(subject.fires(&session), wanted, "{reached} reached, no mark of state {}", without + 1);
    }
}

#[test]
fn marks_that_are_no_simulation() {
    firing_by_marks_held(Engine);
    firing_by_marks_held(Twin);
}

/// Puts a bit more into a word of a session and tells whether it is in layout, by both subjects.
fn holds_with(session: &[u32], word: usize, bit: usize, random: &mut Random) -> bool {
    let mut session = session.to_vec();
    assert_eq!(session[word] >> bit & 1, 0, "word {word} has bit {bit} already");
    session[word] |= 1 << bit;
    let label = format!("{} states and {} nodes, word {word} has bit {bit}", session[0], session[1]);
    let in_layout = all_calls(Engine, &session, random, &label);
    assert_eq!(all_calls(Twin, &session, random, &label), in_layout, "{label}");
    in_layout
}

/// The bit of the sample that a state compares: another one for the state with the same place in the other half.
fn own_bit(state: usize) -> usize {
    (state + state / 16 * 5) % 16
}

/// States of one bit of the sample each; every third one wants it to be missing. The nodes have one bit each, in turns.
fn of_one_bit(states: usize, nodes: usize) -> Case {
    let mut case = Case { samples: (0..nodes).map(|node| 1 << (node % 16)).collect(), ..Case::default() };
    for state in 0..states {
        case.state(1 << own_bit(state), 1 << own_bit(state), 0);
        case.inverted |= u32::from(state % 3 == 2) << state;
    }
    case
}

/// Puts the mark of each state at each node: beside all marks that there may be, and by itself, so that no other state has
/// one. It is in layout exactly where the state admits the node.
fn one_mark_more(case: &Case, random: &mut Random) {
    let nodes = case.samples.len();
    let whole = loaded(case);
    let mut unmarked = whole.clone();
    unmarked[MARKS_AT..][..nodes].fill(0);
    for state in 0..case.masks.len() {
        for node in 0..nodes {
            let admitted = (node % 16 == own_bit(state)) != case.is_inverted(state);
            assert_eq!(whole[MARKS_AT + node] >> state & 1 == 1, admitted, "state {state} at node {node}");
            assert!(admitted || !holds_with(&whole, MARKS_AT + node, state, random));
            assert_eq!(holds_with(&unmarked, MARKS_AT + node, state, random), admitted);
        }
    }
}

/// Vectors have 8 half words: one node, some of a vector, whole ones, and one more.
#[test]
fn a_mark_where_a_state_is_not_admitted() {
    let mut random = Random::new(seed("a_mark_where_a_state_is_not_admitted"), 0);
    for states in [1, 15, 16, 17, 18, 31, 32] {
        for nodes in [1, 7, 8, 17, 33] {
            one_mark_more(&of_one_bit(states, nodes), &mut random);
        }
    }
}

/// Marks, links and inversions of states that are not there: with sixteen states, the whole upper half of the words.
#[test]
fn bits_past_the_states() {
    let mut random = Random::new(seed("bits_past_the_states"), 0);
    for states in [1, 15, 16, 17, 30, 31] {
        let nodes = 18;
        let whole = loaded(&of_one_bit(states, nodes));
        for bit in states..32 {
            for word in [MARKS_AT, MARKS_AT + nodes - 1, LINKS_AT, LINKS_AT + states - 1, INVERTED_AT] {
                assert!(!holds_with(&whole, word, bit, &mut random), "{states} states, word {word}, bit {bit}");
            }
            // The places of the state itself.
            for word in [MASKS_AT + bit, VALUES_AT + bit, LINKS_AT + bit] {
                assert!(!holds_with(&whole, word, 0, &mut random), "{states} states, word {word}");
            }
        }
        // A link to a state that is there is another trigger.
        for bit in 0..states {
            assert!(holds_with(&whole, LINKS_AT, bit, &mut random), "{states} states, link to state {}", bit + 1);
        }
    }
}

/// With 32 states every set is one of states that are there.
#[test]
fn no_bit_past_32_states() {
    let mut random = Random::new(seed("no_bit_past_32_states"), 0);
    let whole = loaded(&of_one_bit(STATES, 40));
    for state in 0..STATES {
        for word in [0, 1 << state, first_states(state + 1), u32::MAX] {
            let mut session = whole.clone();
            session[LINKS_AT + state] = word;
            assert!(all_calls(Engine, &session, &mut random, &format!("links {word:#x} of state {state}")));
        }
    }
    let mut session = whole.clone();
    session[0] = STATES as u32 + 1;
    assert!(!all_calls(Engine, &session, &mut random, "33 states"));
}

#[test]
fn zeroed_memory_is_not_in_layout() {
    let mut random = Random::new(1, 1);
    assert!(!all_calls(Engine, &[0; SESSION], &mut random, "zeroed"));
}

/// Memory shorter than the fixed size meets 3, whatever it holds; questions ask for no change room.
#[test]
fn short_memory() {
    let mut random = Random::new(2, 2);
    let whole = loaded(&Case::random(&mut random, 3, 6, 12, 2));
    for words in [0, 1, 2, INVERTED_AT, MASKS_AT, EDGES_AT - 1, EDGES_AT, MARKS_AT, SESSION - 1] {
        let mut session = whole[..words].to_vec();
        let mut room = vec![7; ROOM];
        let case = Case::random(&mut random, 3, 6, 12, 2);
        assert_eq!(Engine.load(&mut session, &case, &mut room), refused(3));
        assert_eq!(Engine.insert(&mut session, 0, 1, &mut room), refused(3));
        assert_eq!(Engine.delete(&mut session, 600, 1, &mut room), refused(3));
        assert_eq!(Engine.matches(&session, 99, 99), refused(3));
        assert_eq!(Engine.fires(&session), refused(3));
        let mut states = [7; STATES];
        assert_eq!(Engine.order(&session, &mut states), refused(3));
        assert_eq!(session, whole[..words]);
        assert!(room.iter().all(|place| *place == 7) && states == [7; STATES]);
    }
    // Rule 3 comes before rule 10: a short room and a session that is not in layout.
    for places in [0, 1, ROOM - 1] {
        let mut session = vec![0; SESSION];
        assert_eq!(Engine.insert(&mut session, 0, 0, &mut vec![7; places]), refused(3));
        assert_eq!(Engine.delete(&mut session, 0, 0, &mut vec![7; places]), refused(3));
    }
    for places in 0..STATES {
        let mut states = vec![7; places];
        assert_eq!(Engine.order(&whole, &mut states), refused(3));
        assert!(states.iter().all(|place| *place == 7));
    }
}
