//! The calls of a session that owns its memory, compared with the plain fixed-point program.

use comparison::random::seed;
use comparison::{Case, Random};
use reference::Book;
use reference::layout::image_of;
use reference::rules::{NODES, ROOM, SESSION, STATES};
use trigger_engine::{Change, Report, Rule, Session, State};

/// What a report says, with changes as numbers again.
fn told(report: Result<Report, Rule>) -> Result<(bool, usize, Vec<i32>), u8> {
    let told = |report: Report| (report.fires, report.trials as usize, report.changes().map(Change::number).collect());
    report.map(told).map_err(Rule::number)
}

fn wanted(report: Result<reference::Report, u8>) -> Result<(bool, usize, Vec<i32>), u8> {
    report.map(|report| (report.fires, report.trials, report.changes))
}

#[test]
fn a_session_answers_as_the_book_does() {
    let seed = seed("a_session_answers_as_the_book_does");
    // One session for all cases: each load takes the place of what was held.
    let mut session = Session::new();
    for number in 0..2_000 {
        let random = &mut Random::new(seed, number);
        let label = format!("seed {seed}, case {number}");
        let (states, nodes) = (random.between(1, STATES), random.between(1, 20));
        let edges = random.below(3 * nodes);
        let case = Case::random(random, states, nodes, edges, 3);
        let fields = case.masks.iter().zip(&case.values).zip(&case.links).enumerate();
        let state = |(place, ((mask, value), links)): (usize, ((&u16, &u16), &u32))| State {
            mask: *mask,
            value: *value,
            links: *links,
            inverted: case.is_inverted(place),
        };
        let given: Vec<State> = fields.map(state).collect();
        let edges: Vec<(u32, u32)> = case.starts.iter().copied().zip(case.ends.iter().copied()).collect();
        let (mut book, report) = Book::load(SESSION, ROOM, &case.given()).unwrap();
        assert_eq!(told(session.load(&given, &case.samples, &edges)), wanted(Ok(report)), "{label}");
        for _ in 0..20 {
            let (start, end) = (random.below(nodes + 1) as u32, random.below(nodes) as u32);
            if random.once_in(2) {
                assert_eq!(told(session.insert(start, end)), wanted(book.insert(ROOM, start, end)), "{label}");
            } else {
                assert_eq!(told(session.delete(start, end)), wanted(book.delete(ROOM, start, end)), "{label}");
            }
            let (state, node) = (random.below(states + 2) as u32, random.below(nodes + 1) as u32);
            assert_eq!(session.matches(state, node).map_err(Rule::number), book.matches(state, node), "{label}");
        }
        assert_eq!(session.fires(), Ok(book.fires()), "{label}");
        assert_eq!(session.order(), Ok(book.order()), "{label}");
        assert_eq!(session.words(), image_of(&book), "{label}");
    }
}

#[test]
fn rules_and_their_numbers() {
    for number in 0..=u8::MAX {
        let rule = Rule::from_number(number);
        assert_eq!(rule.map(Rule::number), (1..=14).contains(&number).then_some(number));
    }
    let texts: std::collections::BTreeSet<String> = Rule::ALL.iter().map(|rule| rule.to_string()).collect();
    assert_eq!(texts.len(), 14);
}

#[test]
fn changes_and_their_numbers() {
    for node in 0..NODES as u16 {
        for state in 1..=STATES as u8 {
            for begins in [true, false] {
                let change = Change { state, node, begins };
                assert_eq!(Change::from_number(change.number()), change);
                assert_eq!(change.number().unsigned_abs(), u32::from(node) * 64 + u32::from(state));
            }
        }
    }
}
