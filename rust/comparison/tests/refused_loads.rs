//! Loads that break one rule or several: the first in the sequence is answered, and nothing is written.

use comparison::random::seed;
use comparison::subject::{accepted, refused};
use comparison::{Case, Engine, Random, Subject};
use reference::Book;
use reference::rules::{EDGES, NODES, ROOM, SESSION, STATES};

#[test]
fn the_first_rule_broken_is_answered() {
    let seed = seed("the_first_rule_broken_is_answered");
    // How often each rule was answered, and how often where more than one was damaged.
    let mut answers = [[0; 2]; 15];
    for number in 0..40_000 {
        let mut random = Random::new(seed, number);
        let nodes = *random.pick(&[0, 1, 2, 5, 20, NODES - 1, NODES]);
        let states = random.between(1, STATES);
        let edges = random.below((4 * nodes).min(EDGES) + 1);
        let mut case = Case::random(&mut random, states, nodes, edges, 3);
        let several = random.below(2);
        let mut rules = vec![random.between(4, 9) as u8];
        if several == 1 {
            rules = (4..=9).filter(|_| random.once_in(3)).collect();
        }
        for rule in rules.iter().rev() {
            case.damage(&mut random, *rule);
        }
        let mut lengths = [SESSION + random.below(3), ROOM + random.below(3)];
        if random.once_in(10) {
            let short = random.below(2);
            lengths[short] = *random.pick(&[0, 1, SESSION - 1, ROOM - 1]);
        }
        let mut session: Vec<u32> = (0..lengths[0]).map(|i| i as u32 ^ 0xA5A5).collect();
        let mut room: Vec<i32> = (0..lengths[1]).map(|i| i as i32 ^ 0x5A5A).collect();
        let (session_before, room_before) = (session.clone(), room.clone());
        let answer = Engine.load(&mut session, &case, &mut room);
        let label = format!("seed {seed}, case {number}, damages {rules:?}: {case:?}");
        match Book::load(lengths[0], lengths[1], &case.given()) {
            Ok((_, report)) => {
                assert_eq!(answer, accepted(&report), "{label}");
                answers[0][several] += 1;
            }
            Err(rule) => {
                assert_eq!(answer, refused(rule), "{label}");
                assert_eq!(session, session_before, "{label}");
                assert_eq!(room, room_before, "{label}");
                answers[rule as usize][several] += 1;
            }
        }
    }
    for rule in [0, 3, 4, 5, 6, 7, 8, 9] {
        assert!(answers[rule].iter().all(|count| *count > 50), "rule {rule}: {:?}", answers[rule]);
    }
}

/// A state that is not there can not be inverted: it is given in part, which is told before its links are looked at.
#[test]
fn inverted_states_that_are_not_there() {
    for states in 1..=STATES {
        let mut case = Case { samples: vec![0; 3], ..Case::default() };
        (0..states).for_each(|_| case.state(0xFFFF, 0, 0));
        for bit in 0..32 {
            case.inverted = 1 << bit;
            // With 32 states no link goes too far: its bit is shifted out.
            for links in [0, 1u32.checked_shl(states as u32).unwrap_or(0)] {
                case.links[states - 1] = links;
                let (mut session, mut room) = (vec![9; SESSION], vec![9; ROOM]);
                let answer = Engine.load(&mut session, &case, &mut room);
                let label = format!("{states} states, inverted {:#x}, links {links:#x}", case.inverted);
                let wanted = if bit >= states {
                    4
                } else if links != 0 {
                    5
                } else {
                    0
                };
                assert_eq!(answer.rule(), wanted, "{label}");
                assert_eq!(Book::load(SESSION, ROOM, &case.given()).err().unwrap_or(0), wanted, "{label}");
                if wanted != 0 {
                    assert_eq!(answer, refused(wanted), "{label}");
                    assert!(session.iter().all(|word| *word == 9) && room.iter().all(|place| *place == 9), "{label}");
                }
            }
        }
    }
}

/// Edges are all tested for their nodes before any is tested for its order.
#[test]
fn nodes_of_edges_come_before_their_order() {
    let mut case = Case { samples: vec![0; 3], starts: vec![2, 1, 3], ends: vec![0, 0, 0], ..Case::default() };
    case.state(0, 0, 0);
    let (mut session, mut room) = (vec![9; SESSION], vec![9; ROOM]);
    assert_eq!(Engine.load(&mut session, &case, &mut room), refused(8));
    case.starts[2] = 2;
    assert_eq!(Engine.load(&mut session, &case, &mut room), refused(9));
    case.starts[1] = 2;
    assert_eq!(Engine.load(&mut session, &case, &mut room), refused(9));
    assert!(session.iter().all(|word| *word == 9) && room.iter().all(|place| *place == 9));
}
