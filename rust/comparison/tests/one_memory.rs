//! One graph, one memory: whatever calls lead from a load to a set of edges, the words of the session are the same. And
//! along every way the changes of a pair alternate and add up to its standing at the end less that after the load.

use comparison::random::seed;
use comparison::{Case, Edit, Engine, Random, Subject, Twin};
use reference::changes::change;
use reference::rules::{EDGES, NODES, ROOM, SESSION, STATES};
use reference::{Book, Relation};
use std::collections::BTreeSet;

type Edges = BTreeSet<(u32, u32)>;

/// What the lists since a load say of each pair, by the size of its changes.
struct Ledger {
    after_load: Relation,
    stands: Vec<bool>,
    sums: Vec<i32>,
    entries: Vec<usize>,
}

impl Ledger {
    fn new(after_load: Relation) -> Ledger {
        let sizes = change(STATES, NODES, true) as usize;
        let mut stands = vec![false; sizes];
        after_load.pairs().for_each(|(state, node)| stands[change(state, node, true) as usize] = true);
        Ledger { after_load, stands, sums: vec![0; sizes], entries: vec![0; sizes] }
    }

    /// Takes in a list: each change has the other sign than the one before it of its pair, and the first begins where the
    /// pair did not stand.
    fn add(&mut self, list: &[i32], label: &str) {
        for entry in list {
            let size = entry.unsigned_abs() as usize;
            assert_ne!(self.stands[size], *entry > 0, "{label}: {entry} follows a change of its own sign");
            self.stands[size] = *entry > 0;
            self.sums[size] += entry.signum();
            self.entries[size] += 1;
        }
    }

    /// Compares the sums with the standing after the last call, pair by pair; gives how many pairs changed three times or
    /// more often.
    fn compare(&self, standing: &Relation, label: &str) -> usize {
        let mut often = 0;
        for (state, node) in standing.places() {
            let size = change(state, node, true) as usize;
            let wanted = i32::from(standing.has(state, node)) - i32::from(self.after_load.has(state, node));
            assert_eq!(self.sums[size], wanted, "{label}: state {state} at node {node}");
            often += usize::from(self.entries[size] > 2);
        }
        let pairs: BTreeSet<usize> =
            standing.places().map(|(state, node)| change(state, node, true) as usize).collect();
        let stray = (0..self.entries.len()).find(|size| self.entries[*size] > 0 && !pairs.contains(size));
        assert_eq!(stray, None, "{label}: a change of no pair");
        often
    }
}

/// What was drawn so far, and how often things that matter happened.
struct Run {
    random: Random,
    /// Pairs that changed three times or more often on one way.
    often: usize,
    /// Refused calls by their rule.
    refused: [usize; 15],
    questions: usize,
}

/// A session on its way to a set of edges, in memory longer than it needs to be.
struct Way<'a, S> {
    subject: S,
    run: &'a mut Run,
    label: String,
    case: Case,
    edges: Edges,
    session: Vec<u32>,
    rest: Vec<u32>,
    room: Vec<i32>,
    ledger: Ledger,
}

impl<'a, S: Subject> Way<'a, S> {
    /// Loads the case with these edges over whatever the memory holds. The room begins with changes of no call.
    fn load(
        subject: S,
        run: &'a mut Run,
        label: String,
        case: &Case,
        edges: &Edges,
        mut session: Vec<u32>,
    ) -> Way<'a, S> {
        let random = &mut run.random;
        let rest = session[SESSION..].to_vec();
        let mut room = vec![0; ROOM + random.below(20)];
        for place in &mut room[..256] {
            let (state, node) = (random.below(case.masks.len()), random.below(case.samples.len()));
            *place = change(state, node, random.once_in(2));
        }
        let mut case = case.clone();
        case.edges(edges);
        let (book, _) = Book::load(session.len(), room.len(), &case.given()).expect("the case breaks no rule");
        assert_eq!(subject.load(&mut session, &case, &mut room).rule(), 0, "{label}");
        let ledger = Ledger::new(book.standing);
        Way { subject, run, label, case, edges: edges.clone(), session, rest, room, ledger }
    }

    /// Makes an edit with so many places of the room; what it hands back goes into the ledger.
    fn call(&mut self, edit: Edit, places: usize) -> u8 {
        let room = &mut self.room[..places];
        let answer = match edit {
            Edit::Insert(start, end) => self.subject.insert(&mut self.session, start, end, room),
            Edit::Delete(start, end) => self.subject.delete(&mut self.session, start, end, room),
        };
        self.ledger.add(&self.room[..answer.changes()], &self.label);
        answer.rule()
    }

    /// Puts an edge in or takes it out, whichever it can.
    fn toggle(&mut self, (start, end): (u32, u32)) {
        let edit = if self.edges.remove(&(start, end)) {
            Edit::Delete(start, end)
        } else if self.edges.len() < EDGES {
            self.edges.insert((start, end));
            Edit::Insert(start, end)
        } else {
            return;
        };
        assert_eq!(self.call(edit, self.room.len()), 0, "{}: {edit:?}", self.label);
    }

    fn some_edge(&mut self) -> (u32, u32) {
        let nodes = self.case.samples.len();
        (self.run.random.below(nodes) as u32, self.run.random.below(nodes) as u32)
    }

    /// A call that is refused: an edit, or a load.
    fn refused(&mut self) {
        let nodes = self.case.samples.len() as u32;
        let (start, end) = self.some_edge();
        let present = self.edges.contains(&(start, end));
        let places = self.room.len();
        let short = self.run.random.below(ROOM);
        let (rule, wanted) = match self.run.random.below(5) {
            0 => (self.call(Edit::Insert(start, end), short), 3),
            1 => (self.call(Edit::Delete(start, nodes), places), 11),
            2 if present => (self.call(Edit::Insert(start, end), places), 12),
            2 if self.edges.len() == EDGES => (self.call(Edit::Insert(start, end), places), 13),
            2 | 3 if !present => (self.call(Edit::Delete(start, end), places), 14),
            _ => return self.refused_load(),
        };
        assert_eq!(rule, wanted, "{}: {start} to {end}", self.label);
        self.run.refused[usize::from(rule)] += 1;
    }

    /// A load of something else that breaks a rule, over the session: it hands back nothing.
    fn refused_load(&mut self) {
        let mut other = small(&mut self.run.random);
        let rule = self.run.random.between(4, 9) as u8;
        other.damage(&mut self.run.random, rule);
        if let Err(wanted) = Book::load(self.session.len(), self.room.len(), &other.given()) {
            let answer = self.subject.load(&mut self.session, &other, &mut self.room);
            assert_eq!((answer.rule(), answer.changes()), (wanted, 0), "{}", self.label);
            self.run.refused[usize::from(wanted)] += 1;
        }
    }

    fn question(&mut self) {
        let (node, _) = self.some_edge();
        self.subject.matches(&self.session, 1, node);
        self.subject.fires(&self.session);
        self.subject.order(&self.session, &mut [0; STATES]);
        self.run.questions += 1;
    }

    /// So many edges that come or go, whatever the way is to.
    fn detours(&mut self, many: usize) {
        for _ in 0..many {
            let edge = self.some_edge();
            self.toggle(edge);
        }
    }

    /// Goes the rest of the way in any order, with calls that change nothing in between.
    fn go(&mut self, target: &Edges) {
        let mut left: Vec<(u32, u32)> = self.edges.symmetric_difference(target).copied().collect();
        // Deletions may have to come before insertions where there are as many edges as there may be.
        while !left.is_empty() {
            let place = self.run.random.below(left.len());
            let held = self.edges.len();
            self.toggle(left[place]);
            if self.edges.len() != held {
                left.swap_remove(place);
            }
            match self.run.random.below(6) {
                0 => self.refused(),
                1 => self.question(),
                _ => (),
            }
        }
    }

    /// Goes by detours; gives the words of the session at the end.
    fn wander(mut self, detours: usize, target: &Edges) -> Vec<u32> {
        self.detours(detours);
        self.go(target);
        self.end(target)
    }

    /// Compares the ledger and what is past the fixed size; gives the words of the session.
    fn end(self, target: &Edges) -> Vec<u32> {
        assert_eq!(&self.edges, target);
        let mut case = self.case;
        case.edges(target);
        let (book, _) = Book::load(SESSION, ROOM, &case.given()).expect("the case breaks no rule");
        self.run.often += self.ledger.compare(&book.standing, &self.label);
        assert_eq!(self.session[SESSION..], self.rest, "{}: past the fixed size", self.label);
        self.session[..SESSION].to_vec()
    }
}

fn small(random: &mut Random) -> Case {
    let (states, nodes, kinds) = (random.between(1, 5), random.between(1, 7), random.between(1, 3));
    let edges = random.below(nodes * nodes + 1);
    Case::random(random, states, nodes, edges, kinds)
}

fn middle(random: &mut Random) -> Case {
    let (states, nodes, kinds) = (random.between(1, STATES), random.between(8, 60), random.between(1, 5));
    let edges = random.below(4 * nodes);
    Case::random(random, states, nodes, edges, kinds)
}

/// Each limit at once, but for samples: few, so that many pairs are admitted.
fn full(random: &mut Random) -> Case {
    Case::random(random, STATES, NODES, EDGES, 3)
}

/// A ring of states around a closed ring of nodes: from no edge, no pair stands before the last one is in, whichever that is.
fn ring(random: &mut Random) -> Case {
    let (states, turns) = *random.pick(&[(1, 1), (1, 9), (2, 3), (3, 5), (16, 2), (17, 1), (STATES, 2)]);
    Case::ring(random, states, turns, true).0
}

/// Memory of any content, a session or more.
fn memory(run: &mut Run) -> Vec<u32> {
    (0..SESSION + run.random.below(20)).map(|_| run.random.word() as u32).collect()
}

/// The set of edges that the case has, reached in five ways.
fn five_ways<S: Subject>(subject: S, run: &mut Run, label: &str, case: &Case, detours: usize) {
    let target: Edges = case.starts.iter().copied().zip(case.ends.iter().copied()).collect();
    let none = Edges::new();
    let mut node = || run.random.below(case.samples.len()) as u32;
    let other: Edges = target.iter().map(|_| (node(), node())).collect();

    let words = memory(run);
    let loaded = Way::load(subject, run, format!("{label}, loaded"), case, &target, words).end(&target);

    let words = memory(run);
    let mut way = Way::load(subject, run, format!("{label}, ascending"), case, &none, words);
    target.iter().for_each(|edge| way.toggle(*edge));
    let ascending = way.end(&target);

    let words = memory(run);
    let way = Way::load(subject, run, format!("{label}, from no edge"), case, &none, words);
    let from_none = way.wander(detours, &target);

    let words = memory(run);
    let way = Way::load(subject, run, format!("{label}, from other edges"), case, &other, words);
    let from_others = way.wander(detours, &target);

    // Another trigger with a graph and edits of its own, in the same memory before.
    let before = middle(&mut run.random);
    let words = memory(run);
    let mut way = Way::load(subject, run, format!("{label}, another trigger"), &before, &none, words);
    way.detours(10);
    let words = way.session;
    let way = Way::load(subject, run, format!("{label}, after another trigger"), case, &other, words);
    let after_another = way.wander(detours, &target);

    let ways = [("ascending", ascending), ("none", from_none), ("others", from_others), ("another", after_another)];
    for (way, words) in ways {
        let place = (0..SESSION).find(|place| words[*place] != loaded[*place]);
        assert_eq!(place, None, "{label}: {way}: this word differs from that of a load");
    }
}

fn ways<S: Subject>(subject: S, test: &str, cases: u64, detours: usize, case: impl Fn(&mut Random) -> Case) -> Run {
    let seed = seed(test);
    let mut run = Run { random: Random::new(seed, 0), often: 0, refused: [0; 15], questions: 0 };
    for number in 0..cases {
        run.random = Random::new(seed, number);
        let case = case(&mut run.random);
        five_ways(subject, &mut run, &format!("{test}: seed {seed}, case {number}"), &case, detours);
    }
    run
}

#[test]
fn small_graphs() {
    let run = ways(Engine, "small_graphs", 3_000, 40, small);
    assert!(run.often > 3_000 && run.questions > 3_000, "{} pairs, {} questions", run.often, run.questions);
    assert!([3, 4, 5, 6, 7, 8, 9, 11, 12, 14].iter().all(|rule| run.refused[*rule] > 50), "{:?}", run.refused);
}

#[test]
fn middle_graphs() {
    let run = ways(Engine, "middle_graphs", 200, 100, middle);
    assert!(run.often > 1_000, "{} pairs", run.often);
}

#[test]
fn full_graphs() {
    let run = ways(Engine, "full_graphs", 3, 200, full);
    assert!(run.refused[13] > 10, "{:?}", run.refused);
}

/// Rings closed by whichever edge comes last.
#[test]
fn rings() {
    ways(Engine, "rings", 200, 0, ring);
}

#[test]
fn the_twin_of_the_benchmark() {
    ways(Twin, "the_twin_of_the_benchmark", 500, 40, small);
    ways(Twin, "the_twin_of_the_benchmark", 40, 100, middle);
    ways(Twin, "the_twin_of_the_benchmark", 40, 0, ring);
}
