//! Orphans: states that no chain of links reaches from State One. Marks, trial counts and changes cover them as they do
//! all states, and the trigger fires without them.
//!
//! State u compares bit u - 1 of a sample alone, so a sample is the set of the states that admit it, bit 0 for State One.

use reference::cut::{cut, reached};
use reference::firing::{fires, marks_fire, matched};
use reference::rules::{ROOM, SESSION};
use reference::standing::standing;
use reference::{Book, Given, Graph, Relation, Report, Trigger};

/// The mask, and the value, of each state.
const BITS: [u16; 8] = [1, 2, 4, 8, 16, 32, 64, 128];

fn trigger(links: &[u32]) -> Trigger {
    let bits = &BITS[..links.len()];
    Trigger::new(bits, bits, links, 0)
}

fn load(links: &[u32], samples: &[u16]) -> (Book, Report) {
    let bits = &BITS[..links.len()];
    let given = Given { masks: bits, values: bits, links, inverted: 0, samples, starts: &[], ends: &[] };
    Book::load(SESSION, ROOM, &given).unwrap()
}

fn report(fires: bool, trials: usize, changes: &[i32]) -> Report {
    Report { fires, trials, changes: changes.to_vec() }
}

#[test]
fn state_one_alone() {
    assert_eq!(load(&[0], &[0b1]).1, report(true, 1, &[1]));
    assert_eq!(load(&[0], &[0b0]).1, report(false, 0, &[]));
    assert_eq!(load(&[0], &[]).1, report(false, 0, &[]));
    assert_eq!(load(&[0b1], &[0b1]).1, report(false, 1, &[]));
}

#[test]
fn two_states_without_links() {
    assert_eq!(load(&[0, 0], &[0b01]).1, report(true, 1, &[1]));
    assert_eq!(load(&[0, 0], &[0b10]).1, report(false, 1, &[2]));
    assert_eq!(load(&[0, 0], &[0b11]).1, report(true, 2, &[1, 2]));
}

/// State 2 is linked to State One, and nothing to state 2: it is no matter whether it stands, and its changes are listed.
#[test]
fn an_orphan_linked_to_a_reached_state() {
    let (mut book, loaded) = load(&[0, 0b01], &[0b11]);
    assert_eq!(loaded, report(true, 2, &[1]));
    assert_eq!(book.insert(ROOM, 0, 0), Ok(report(true, 1, &[2])));
    assert_eq!(book.delete(ROOM, 0, 0), Ok(report(true, 1, &[-2])));
}

/// States 2 and 3 are a ring that no link leads into. State One has no link, and stands all the time.
#[test]
fn a_ring_away_from_state_one() {
    let (mut book, loaded) = load(&[0, 0b100, 0b010], &[0b001, 0b010, 0b100]);
    assert_eq!(loaded, report(true, 3, &[1]));
    assert_eq!(book.insert(ROOM, 1, 2), Ok(report(true, 1, &[])));
    assert_eq!(book.insert(ROOM, 2, 1), Ok(report(true, 2, &[66, 131])));
    assert_eq!(book.delete(ROOM, 1, 2), Ok(report(true, 2, &[-66, -131])));
}

/// The same ring, and State One linked to itself: the ring stands on its own and the trigger is silent.
#[test]
fn a_ring_that_stands_without_state_one() {
    let (mut book, loaded) = load(&[0b001, 0b100, 0b010], &[0b001, 0b010, 0b100]);
    assert_eq!(loaded, report(false, 3, &[]));
    assert_eq!(book.insert(ROOM, 1, 2), Ok(report(false, 1, &[])));
    assert_eq!(book.insert(ROOM, 2, 1), Ok(report(false, 2, &[66, 131])));
    assert_eq!(book.insert(ROOM, 0, 0), Ok(report(true, 1, &[1])));
    assert_eq!(book.delete(ROOM, 2, 1), Ok(report(true, 2, &[-66, -131])));
    assert_eq!(book.delete(ROOM, 0, 0), Ok(report(false, 1, &[-1])));
}

/// A chain of three states: while one of them does not stand, State One does not either.
#[test]
fn every_state_reached() {
    let (mut book, loaded) = load(&[0b010, 0b100, 0], &[0b001, 0b010, 0b100]);
    assert_eq!(loaded, report(false, 3, &[131]));
    assert_eq!(book.insert(ROOM, 0, 1), Ok(report(false, 1, &[])));
    assert_eq!(book.insert(ROOM, 1, 2), Ok(report(true, 2, &[1, 66])));
    assert_eq!(load(&[0b010, 0b100, 0], &[0b001, 0b010]).1, report(false, 2, &[]));
}

/// Held marks that are no simulation: every reached state is looked at, however long the chain to it, and no other.
#[test]
fn marks_of_reached_states() {
    // State One is linked to state 2, that to state 3, that to state 4; state 5 is linked to State One, state 6 to itself.
    let trigger = trigger(&[0b000010, 0b000100, 0b001000, 0, 0b000001, 0b100000]);
    let graph = Graph::new(&[0b111111]);
    for set in 0..1u32 << 6 {
        let marks = Relation::of(6, 1, |state, _| set >> state & 1 == 1);
        assert_eq!(marks_fire(&trigger, &graph, &marks), set & 0b001111 == 0b001111, "marks {set:#b}");
    }
}

/// State One leads to state 4, that to itself and state 6, that back to State One; states 2 and 3 are a ring with a link
/// out of it, and state 5 is linked to State One.
#[test]
fn a_trigger_cut_down() {
    let whole = trigger(&[0b001000, 0b000100, 0b001010, 0b101000, 0b000001, 0b000001]);
    assert!(reached(&whole).into_iter().eq([0, 3, 5]));
    let (kept, cut) = cut(&whole);
    assert_eq!(kept, [0, 3, 5]);
    assert_eq!(cut, Trigger::new(&[1, 8, 32], &[1, 8, 32], &[0b010, 0b110, 0b001], 0));
}

/// A kept state stays inverted, and keeps its mask and value.
#[test]
fn an_inverted_state_is_kept() {
    let whole = Trigger::new(&[0xFF, 1, 0], &[7, 2, 9], &[0b100, 0, 0], 0b110);
    assert_eq!(cut(&whole), (vec![0, 2], Trigger::new(&[0xFF, 0], &[7, 9], &[0b10, 0], 0b10)));
}

/// A small generator of random numbers.
struct Random(u64);

impl Random {
    fn word(&mut self) -> u32 {
        self.0 = self.0.wrapping_mul(0x5851_F42D_4C95_7F2D).wrapping_add(0x1405_7B7E_F767_814F);
        (self.0 >> 32) as u32
    }

    fn below(&mut self, bound: usize) -> usize {
        self.word() as usize % bound
    }
}

/// Random triggers with few links and graphs with many edges, so that State One stands somewhere in about half of them.
fn drawn() -> impl Iterator<Item = (Trigger, Graph)> {
    let mut random = Random(1);
    (0..20_000).map(move |_| {
        let (states, nodes) = (1 + random.below(7), random.below(7));
        let links: Vec<u32> = (0..states).map(|_| random.word() & random.word() & ((1 << states) - 1)).collect();
        let samples: Vec<u16> = (0..nodes).map(|_| random.word() as u16).collect();
        let mut graph = Graph::new(&samples);
        for ends in &mut graph.ends {
            *ends = (0..nodes).filter(|_| random.below(2) == 0).collect();
        }
        (trigger(&links), graph)
    })
}

#[test]
fn cutting_alters_no_mark_of_a_reached_state() {
    let (mut cuts, mut stood) = (0, 0);
    for (trigger, graph) in drawn() {
        let whole = standing(&trigger, &graph);
        let (kept, cut) = cut(&trigger);
        let marks = standing(&cut, &graph);
        for (state, node) in marks.places() {
            assert_eq!(marks.has(state, node), whole.has(kept[state], node), "{trigger:?} in {graph:?}");
        }
        cuts += usize::from(1 < kept.len() && kept.len() < trigger.states.len());
        stood += marks.size();
    }
    assert!(cuts > 5_000 && stood > 20_000, "{cuts} cuts, {stood} marks");
}

/// The match of the cut trigger, the marks of the reached states and those of State One alone tell the same.
#[test]
fn firing_told_in_three_ways() {
    // How often the trigger fires, and how often it does where an orphan stands nowhere or is silent where one stands.
    let mut counts = [0; 3];
    for (trigger, graph) in drawn() {
        let marks = standing(&trigger, &graph);
        let stands = |state: usize| (0..graph.nodes()).any(|node| marks.has(state, node));
        let fires = fires(&trigger, &graph);
        assert_eq!(fires, marks_fire(&trigger, &graph, &marks), "{trigger:?} in {graph:?}");
        assert_eq!(fires, stands(0), "{trigger:?} in {graph:?}");
        let reached = reached(&trigger);
        let mut orphans = (0..trigger.states.len()).filter(|state| !reached.contains(state));
        let differs = orphans.any(|state| stands(state) != fires);
        let kinds = [fires, fires && differs, !fires && differs];
        counts.iter_mut().zip(kinds).for_each(|(count, kind)| *count += usize::from(kind));
    }
    assert!(counts.iter().all(|count| *count > 1_000), "{counts:?}");
}

/// Where every state is reached, the trigger fires exactly when the whole of it has a match, as it formerly did.
#[test]
fn without_orphans_nothing_changed() {
    let mut counts = [0; 2];
    let all_reached = |(trigger, _): &(Trigger, Graph)| reached(trigger).len() == trigger.states.len();
    for (trigger, graph) in drawn().filter(all_reached) {
        let formerly = matched(&trigger, &graph).size() > 0;
        assert_eq!(fires(&trigger, &graph), formerly, "{trigger:?} in {graph:?}");
        counts[usize::from(formerly)] += 1;
    }
    assert!(counts.iter().all(|count| *count > 1_000), "{counts:?}");
}
