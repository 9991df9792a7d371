//! The cases worked by hand, through the safe calls.

use reference::layout::{EDGES_AT, INVERTED_AT, LINKS_AT, MARKS_AT, MASKS_AT, SAMPLES_AT, VALUES_AT};
use reference::rules::SESSION;
use trigger_engine::{Change, Rule, Session, State};

fn state(mask: u16, value: u16, links: u32) -> State {
    State { mask, value, links, inverted: false }
}

fn inverted(mask: u16, value: u16, links: u32) -> State {
    State { inverted: true, ..state(mask, value, links) }
}

fn begins(state: u8, node: u16) -> Change {
    Change { state, node, begins: true }
}

fn ceases(state: u8, node: u16) -> Change {
    Change { state, node, begins: false }
}

/// Firing, trial count and changes of a report.
fn told(report: Result<trigger_engine::Report, Rule>) -> Result<(bool, u32, Vec<Change>), Rule> {
    report.map(|report| (report.fires, report.trials, report.changes().collect()))
}

#[test]
fn one_state_without_links() {
    let mut session = Session::new();
    let one = [state(0xFFFF, 7, 0)];
    assert_eq!(told(session.load(&one, &[7], &[])), Ok((true, 1, vec![begins(1, 0)])));
    assert_eq!(session.matches(1, 0), Ok(true));
    assert_eq!(told(session.load(&one, &[], &[])), Ok((false, 0, vec![])));
    assert_eq!(session.matches(1, 0), Err(Rule::Name));
}

#[test]
fn a_state_linked_to_itself() {
    let mut session = Session::new();
    let one = [state(0xFFFF, 7, 1)];
    assert_eq!(told(session.load(&one, &[7], &[])), Ok((false, 1, vec![])));
    assert_eq!(told(session.insert(0, 0)), Ok((true, 1, vec![begins(1, 0)])));

    let both = vec![begins(1, 0), begins(1, 1)];
    assert_eq!(told(session.load(&one, &[7, 7], &[(0, 1), (1, 0)])), Ok((true, 2, both)));
    assert_eq!(told(session.delete(0, 1)), Ok((false, 2, vec![ceases(1, 0), ceases(1, 1)])));
}

#[test]
fn another_edge_carries_the_link() {
    let mut session = Session::new();
    let states = [state(0xFFFF, 1, 0b10), state(0xFFFF, 2, 0)];
    let report = told(session.load(&states, &[1, 2, 2], &[(0, 1), (0, 2)]));
    assert_eq!(report, Ok((true, 3, vec![begins(1, 0), begins(2, 1), begins(2, 2)])));
    assert_eq!(told(session.delete(0, 1)), Ok((true, 0, vec![])));
}

#[test]
fn a_mask_of_zero_admits_every_node() {
    let mut session = Session::new();
    let report = told(session.load(&[state(0, 0x00FF, 0)], &[0x0000, 0xFFFF], &[]));
    assert_eq!(report, Ok((true, 2, vec![begins(1, 0), begins(1, 1)])));
}

/// The idle word is 0000: the inverted state stands everywhere else.
#[test]
fn anything_but_the_idle_word() {
    let mut session = Session::new();
    let samples = [0x0000, 0x0001, 0x0000, 0x8000, 0xFFFF];
    let busy = [inverted(0xFFFF, 0x0000, 0)];
    let report = told(session.load(&busy, &samples, &[]));
    assert_eq!(report, Ok((true, 3, vec![begins(1, 1), begins(1, 3), begins(1, 4)])));
    assert_eq!(session.matches(1, 0), Ok(false));
    assert_eq!(session.matches(1, 1), Ok(true));
    assert_eq!(told(session.load(&busy, &[0, 0], &[])), Ok((false, 0, vec![])));

    // Bits outside the mask are ignored: both words with low byte 01 are not admitted.
    let report = told(session.load(&[inverted(0x00FF, 0x1201, 0)], &[0x0001, 0xFF01, 0x0101, 0x0102], &[]));
    assert_eq!(report, Ok((true, 1, vec![begins(1, 3)])));
}

/// Busy and idle in turns: one edge closes the ring, and one opens it.
#[test]
fn an_inverted_state_in_a_ring() {
    let mut session = Session::new();
    let states = [inverted(0xFFFF, 0, 0b10), state(0xFFFF, 0, 0b01)];
    assert_eq!(told(session.load(&states, &[0, 5], &[])), Ok((false, 2, vec![])));
    assert_eq!(told(session.insert(0, 1)), Ok((false, 1, vec![])));
    assert_eq!(told(session.insert(1, 0)), Ok((true, 2, vec![begins(2, 0), begins(1, 1)])));
    assert_eq!(told(session.delete(0, 1)), Ok((false, 2, vec![ceases(2, 0), ceases(1, 1)])));
    assert_eq!(session.words()[INVERTED_AT], 0b01);
}

/// The one exception: inverted or not, a mask of zero admits every node. The session holds the inversion as it was given.
#[test]
fn an_inverted_mask_of_zero_admits_every_node() {
    let mut session = Session::new();
    let samples = [0x0000, 0x00FF, 0xFFFF];
    let report = told(session.load(&[inverted(0, 0x00FF, 0)], &samples, &[]));
    assert_eq!(report, Ok((true, 3, vec![begins(1, 0), begins(1, 1), begins(1, 2)])));
    assert_eq!(session.words()[INVERTED_AT..][..2], [0b1, 0x0000]);
    assert_eq!(session.matches(1, 1), Ok(true));
    // With one bit in the mask it is no exception: words that have bit 0, as the value has, are not admitted.
    let report = told(session.load(&[inverted(1, 0x00FF, 0)], &samples, &[]));
    assert_eq!(report, Ok((true, 1, vec![begins(1, 0)])));

    // A state without links stands at once, and a state that is linked to it where an edge leads on.
    let states = [inverted(0, 0x00FF, 0), state(0, 0, 0b01)];
    let report = told(session.load(&states, &samples[..2], &[(0, 1)]));
    assert_eq!(report, Ok((true, 4, vec![begins(1, 0), begins(2, 0), begins(1, 1)])));
    assert_eq!(told(session.insert(1, 0)), Ok((true, 1, vec![begins(2, 1)])));
    assert_eq!(session.words()[INVERTED_AT..][..3], [0b01, 0x0000, 0x0000]);
}

/// Any word and the idle word in turns. State 1, blank and inverted, admits the idle word too.
#[test]
fn a_blank_inverted_state_in_a_ring() {
    let mut session = Session::new();
    let states = [inverted(0, 0, 0b10), state(0xFFFF, 0, 0b01)];
    assert_eq!(told(session.load(&states, &[0, 5], &[])), Ok((false, 3, vec![])));
    assert_eq!(told(session.insert(0, 1)), Ok((false, 1, vec![])));
    assert_eq!(told(session.insert(1, 0)), Ok((true, 2, vec![begins(2, 0), begins(1, 1)])));
    // A loop at the idle word carries both states.
    assert_eq!(told(session.insert(0, 0)), Ok((true, 1, vec![begins(1, 0)])));
    assert_eq!(told(session.delete(0, 1)), Ok((true, 0, vec![])));
    assert_eq!(told(session.delete(0, 0)), Ok((false, 3, vec![ceases(1, 0), ceases(2, 0), ceases(1, 1)])));
    assert_eq!(session.words()[INVERTED_AT..][..3], [0b01, 0x0000, 0xFFFF]);
}

#[test]
fn marks_are_held_where_the_trigger_does_not_fire() {
    let mut session = Session::new();
    let states = [state(0xFFFF, 1, 0), state(0xFFFF, 2, 0)];
    assert_eq!(told(session.load(&states, &[2], &[])), Ok((false, 1, vec![begins(2, 0)])));
    assert_eq!(session.matches(1, 0), Ok(false));
    assert_eq!(session.matches(2, 0), Ok(true));
    assert_eq!(session.fires(), Ok(false));
}

/// No link leads to state 2: the trigger fires whether it stands or not.
#[test]
fn an_orphan_that_stands_nowhere() {
    let mut session = Session::new();
    let states = [state(0xFFFF, 1, 0), state(0xFFFF, 2, 0)];
    assert_eq!(told(session.load(&states, &[1], &[])), Ok((true, 1, vec![begins(1, 0)])));
    assert_eq!(session.matches(2, 0), Ok(false));
    assert_eq!(session.fires(), Ok(true));

    // Linked to State One, it begins and ceases to stand, and that is told.
    let states = [state(0xFFFF, 1, 0), state(0xFFFF, 1, 0b01)];
    assert_eq!(told(session.load(&states, &[1], &[])), Ok((true, 2, vec![begins(1, 0)])));
    assert_eq!(told(session.insert(0, 0)), Ok((true, 1, vec![begins(2, 0)])));
    assert_eq!(told(session.delete(0, 0)), Ok((true, 1, vec![ceases(2, 0)])));
    assert_eq!(session.fires(), Ok(true));
}

/// States 2 and 3 are a ring that no link leads into. It stands or not, and the trigger fires where State One stands.
#[test]
fn a_ring_of_orphans() {
    let mut session = Session::new();
    let ring = [state(0xFFFF, 2, 0b100), state(0xFFFF, 3, 0b010)];
    let (begin, cease) = (vec![begins(2, 1), begins(3, 2)], vec![ceases(2, 1), ceases(3, 2)]);
    let states = [state(0xFFFF, 1, 0), ring[0], ring[1]];
    assert_eq!(told(session.load(&states, &[1, 2, 3], &[(1, 2)])), Ok((true, 3, vec![begins(1, 0)])));
    assert_eq!(told(session.insert(2, 1)), Ok((true, 2, begin.clone())));
    assert_eq!(told(session.delete(1, 2)), Ok((true, 2, cease.clone())));

    // State One is linked to itself, and does not stand before the last edge comes.
    let states = [state(0xFFFF, 1, 0b001), ring[0], ring[1]];
    assert_eq!(told(session.load(&states, &[1, 2, 3], &[(1, 2)])), Ok((false, 3, vec![])));
    assert_eq!(told(session.insert(2, 1)), Ok((false, 2, begin)));
    assert_eq!(session.fires(), Ok(false));
    assert_eq!(told(session.insert(0, 0)), Ok((true, 1, vec![begins(1, 0)])));
    assert_eq!(told(session.delete(1, 2)), Ok((true, 2, cease)));
}

/// A chain of three states: all are reached, and each has to stand.
#[test]
fn every_state_reached() {
    let mut session = Session::new();
    let states = [state(0xFFFF, 1, 0b010), state(0xFFFF, 2, 0b100), state(0xFFFF, 3, 0)];
    assert_eq!(told(session.load(&states, &[1, 2], &[(0, 1)])), Ok((false, 2, vec![])));
    assert_eq!(told(session.load(&states, &[1, 2, 3], &[(0, 1)])), Ok((false, 3, vec![begins(3, 2)])));
    assert_eq!(session.fires(), Ok(false));
    assert_eq!(told(session.insert(1, 2)), Ok((true, 2, vec![begins(1, 0), begins(2, 1)])));
}

/// State One is linked to the last state alone, and the states between them are orphans that stand nowhere: the last one
/// decides whether State One stands, and whether the trigger fires.
#[test]
fn a_link_to_the_last_state() {
    for last in [2, 16, 17, 31, 32] {
        let mut session = Session::new();
        let mut states = vec![state(0xFFFF, 9, 0); last];
        states[0] = state(0xFFFF, 1, 1 << (last - 1));
        states[last - 1] = state(0xFFFF, 2, 0);
        let number = last as u8;
        assert_eq!(told(session.load(&states, &[1, 2], &[])), Ok((false, 2, vec![begins(number, 1)])));
        assert_eq!(told(session.insert(0, 1)), Ok((true, 1, vec![begins(1, 0)])));
        assert_eq!(told(session.delete(0, 1)), Ok((false, 1, vec![ceases(1, 0)])));
        assert_eq!(session.matches(number.into(), 1), Ok(true));
        assert_eq!(session.matches(u32::from(number) + 1, 1), Err(Rule::Name));
        // It is not admitted anywhere: no edge carries the link.
        assert_eq!(told(session.load(&states, &[1, 1], &[(0, 1), (1, 0)])), Ok((false, 2, vec![])));
        // It is linked to itself, and stands only where the edge from its node to itself does.
        states[last - 1].links = 1 << (last - 1);
        assert_eq!(told(session.load(&states, &[1, 2], &[(0, 1)])), Ok((false, 2, vec![])));
        assert_eq!(told(session.insert(1, 1)), Ok((true, 2, vec![begins(1, 0), begins(number, 1)])));
        assert_eq!(told(session.delete(1, 1)), Ok((false, 2, vec![ceases(1, 0), ceases(number, 1)])));
        assert_eq!(session.order().map(|order| order[..2].to_vec()), Ok(vec![1, number]));
    }
}

/// The last state inverted, and blank and inverted.
#[test]
fn the_last_state_inverted() {
    for last in [16, 17, 32] {
        let mut session = Session::new();
        let mut states = vec![state(0xFFFF, 9, 0); last];
        states[last - 1] = inverted(0xFFFF, 5, 0);
        let number = last as u8;
        assert_eq!(told(session.load(&states, &[5, 6], &[])), Ok((false, 1, vec![begins(number, 1)])));
        assert_eq!(session.words()[INVERTED_AT], 1 << (last - 1));
        assert_eq!(session.words()[MARKS_AT..][..2], [0, 1 << (last - 1)]);
        states[last - 1] = inverted(0, 5, 0);
        let both = vec![begins(number, 0), begins(number, 1)];
        assert_eq!(told(session.load(&states, &[5, 6], &[])), Ok((false, 2, both)));
    }
}

/// Each state has a word of its own and is linked to the next one, the last to State One; the nodes have these words in
/// turn, and an edge to the next. Nothing stands before the edge out of the last state's node closes the ring.
#[test]
fn a_ring_through_the_last_state() {
    for states in [16, 17, 32] {
        let mut session = Session::new();
        let ring: Vec<State> = (0..states).map(|s| state(0xFFFF, s as u16, 1 << ((s + 1) % states))).collect();
        let samples: Vec<u16> = (0..states as u16).collect();
        let last = states as u32 - 1;
        let mut edges: Vec<(u32, u32)> = (0..last).map(|node| (node, node + 1)).collect();
        // A shorter ring, past the node of the last state.
        edges.insert(edges.len() - 1, (last - 1, 0));
        assert_eq!(told(session.load(&ring, &samples, &edges)), Ok((false, last + 1, vec![])));
        let all = |begins: bool| (0..states).map(|s| Change { state: s as u8 + 1, node: s as u16, begins }).collect();
        assert_eq!(told(session.insert(last, 0)), Ok((true, last + 1, all(true))));
        assert_eq!(told(session.delete(last - 1, 0)), Ok((true, 0, vec![])));
        assert_eq!(told(session.delete(last - 1, last)), Ok((false, last + 1, all(false))));
        let order: Vec<u8> = (1..=states as u8).collect();
        assert_eq!(session.order(), Ok(order));
    }
}

#[test]
fn limits() {
    let mut session = Session::new();
    let states = |count: usize| vec![state(0, 0, 0); count];
    assert!(session.load(&states(32), &[], &[]).is_ok());
    assert_eq!(told(session.load(&states(33), &[], &[])), Err(Rule::States));
    assert_eq!(told(session.load(&[], &[], &[])), Err(Rule::States));
    // Up to as many states as the set of inverted ones has bits for, and more, all of them inverted.
    for count in [16, 17, 32, 33, 70] {
        let answer = told(session.load(&vec![inverted(0xFFFF, 0, 0); count], &[], &[]));
        assert_eq!(answer, if count <= 32 { Ok((false, 0, vec![])) } else { Err(Rule::States) });
    }
    assert!(session.load(&states(1), &[0; 512], &[]).is_ok());
    assert_eq!(told(session.load(&states(1), &[0; 513], &[])), Err(Rule::Nodes));
    for count in 1..=32 {
        let mut linked = states(count);
        linked[0].links = 1 << (count - 1);
        assert!(session.load(&linked, &[], &[]).is_ok());
        for bit in count..32 {
            linked[0].links = 1 << bit;
            assert_eq!(told(session.load(&linked, &[], &[])), Err(Rule::Link));
        }
    }
    // With 32 states there is no link that goes too far.
    assert!(session.load(&vec![state(0, 0, u32::MAX); 32], &[], &[]).is_ok());
    assert!(session.load(&states(1), &[0; 512], &[(511, 511)]).is_ok());
    for edge in [(512, 0), (0, 512)] {
        assert_eq!(told(session.load(&states(1), &[0; 512], &[edge])), Err(Rule::EdgeNode));
    }

    let edges: Vec<(u32, u32)> = (0..2049).map(|i| (i / 64, i % 64)).collect();
    assert!(session.load(&states(1), &[0; 64], &edges[..2048]).is_ok());
    let before = session.words().to_vec();
    assert_eq!(told(session.insert(32, 0)), Err(Rule::EdgeLimit));
    assert_eq!(told(session.insert(31, 63)), Err(Rule::EdgePresent));
    assert_eq!(told(session.load(&states(1), &[0; 64], &edges)), Err(Rule::Edges));
    assert_eq!(session.words(), before);
    assert!(session.delete(31, 63).is_ok());
    assert!(session.insert(32, 0).is_ok());
}

/// The memory that is worked out word by word in `docs/LAYOUT.md`.
#[test]
fn the_worked_memory() {
    let mut session = Session::new();
    let states = [state(0xFFFF, 1, 0b10), state(0xFFFF, 2, 0b01)];
    session.load(&states, &[1, 2], &[(0, 1), (1, 0)]).unwrap();
    let mut wanted = vec![0; SESSION];
    wanted[..INVERTED_AT].fill(2);
    wanted[MASKS_AT..][..2].fill(65_535);
    for at in [VALUES_AT, SAMPLES_AT, MARKS_AT] {
        wanted[at..at + 2].copy_from_slice(&[1, 2]);
    }
    wanted[LINKS_AT..][..2].copy_from_slice(&[2, 1]);
    wanted[EDGES_AT..][..2].copy_from_slice(&[1, 512]);
    assert_eq!(session.words(), wanted);
    assert_eq!(session.order(), Ok(vec![1, 2]));

    // The same marks where state 2 is anything but 1.
    session.load(&[states[0], inverted(0xFFFF, 1, 0b01)], &[1, 2], &[(0, 1), (1, 0)]).unwrap();
    wanted[INVERTED_AT] = 0b10;
    wanted[VALUES_AT + 1] = 1;
    assert_eq!(session.words(), wanted);
}
