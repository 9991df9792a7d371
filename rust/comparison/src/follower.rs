//! A session and the book of the same calls, compared after each call in every lent place.

use crate::cases::Case;
use crate::random::Random;
use crate::subject::{Subject, accepted, answered, refused};
use reference::layout::image_of;
use reference::rules::{NODES, ROOM, SESSION, STATES};
use reference::{Book, Report};
use trigger_engine::lent::Answer;

/// An insertion or a deletion.
#[derive(Clone, Copy, Debug, PartialEq, Eq)]
pub enum Edit {
    /// Inserts the edge from one node to another.
    Insert(u32, u32),
    /// Deletes it.
    Delete(u32, u32),
}

/// A subject's memory and what it ought to be. Memory and room are longer than they need to be; all that is past the
/// fixed size and past the list must stay.
pub struct Follower<S> {
    subject: S,
    /// What is said when something differs.
    label: String,
    case: Case,
    edits: Vec<(Edit, usize)>,
    session: Vec<u32>,
    room: Vec<i32>,
    wanted_session: Vec<u32>,
    wanted_room: Vec<i32>,
    /// The book of the calls so far.
    pub book: Book,
    /// How many edits changed some pair.
    pub changed: usize,
}

impl<S: Subject> Follower<S> {
    /// Loads a case that breaks no rule into memory of random content.
    pub fn load(subject: S, random: &mut Random, label: &str, case: &Case) -> Follower<S> {
        let extra = random.below(20);
        let mut session: Vec<u32> = (0..SESSION + extra).map(|_| random.word() as u32).collect();
        let mut room: Vec<i32> = (0..ROOM + extra).map(|_| random.word() as i32).collect();
        let mut wanted_session = session.clone();
        let mut wanted_room = room.clone();
        let (book, report) = Book::load(session.len(), room.len(), &case.given())
            .unwrap_or_else(|number| panic!("{label}: the case breaks rule {number}"));
        let answer = subject.load(&mut session, case, &mut room);
        wanted_session[..SESSION].copy_from_slice(&image_of(&book));
        wanted_room[..report.changes.len()].copy_from_slice(&report.changes);
        let follower = Follower {
            subject,
            label: label.to_string(),
            case: case.clone(),
            edits: Vec::new(),
            session,
            room,
            wanted_session,
            wanted_room,
            book,
            changed: 0,
        };
        follower.compare(answer, Ok(report));
        follower
    }

    /// Makes an edit with the whole room.
    pub fn edit(&mut self, edit: Edit) -> Result<Report, u8> {
        self.edit_in(edit, self.room.len())
    }

    /// Makes an edit with so many places of the room.
    pub fn edit_in(&mut self, edit: Edit, places: usize) -> Result<Report, u8> {
        self.edits.push((edit, places));
        let room = &mut self.room[..places];
        let (answer, wanted) = match edit {
            Edit::Insert(start, end) => {
                (self.subject.insert(&mut self.session, start, end, room), self.book.insert(places, start, end))
            }
            Edit::Delete(start, end) => {
                (self.subject.delete(&mut self.session, start, end, room), self.book.delete(places, start, end))
            }
        };
        if let Ok(report) = &wanted {
            self.wanted_session[..SESSION].copy_from_slice(&image_of(&self.book));
            self.wanted_room[..report.changes.len()].copy_from_slice(&report.changes);
            self.changed += usize::from(!report.changes.is_empty());
        }
        self.compare(answer, wanted.clone());
        wanted
    }

    /// Asks whether a state stands at a node.
    pub fn ask(&self, state: u32, node: u32) {
        let answer = self.subject.matches(&self.session, state, node);
        let wanted = answered(self.book.matches(state, node));
        self.same(answer == wanted, &format!("matches({state}, {node}): {answer:?}, not {wanted:?}"));
    }

    /// Asks whether the trigger fires, and for the walk order.
    pub fn ask_trigger(&self) {
        let answer = self.subject.fires(&self.session);
        let wanted = answered(Ok(self.book.fires()));
        self.same(answer == wanted, &format!("fires: {answer:?}, not {wanted:?}"));

        let mut states = [0xEE; STATES + 3];
        let answer = self.subject.order(&self.session, &mut states);
        let order = self.book.order();
        let mut wanted = [0xEE; STATES + 3];
        wanted[..STATES].fill(0);
        wanted[..order.len()].copy_from_slice(&order);
        self.same(states == wanted, &format!("order: {states:?}, not {wanted:?}"));
        self.same(answer == Answer((order.len() as u64) << 40), &format!("order: {answer:?}"));
        self.same(self.session == self.wanted_session, "a question wrote to the session");
    }

    /// Asks about every pair, those just outside trigger and graph included.
    pub fn ask_all(&self) {
        self.ask_trigger();
        for state in 0..=self.book.trigger.states.len() as u32 + 1 {
            for node in 0..=self.book.graph.nodes() as u32 {
                self.ask(state, node);
            }
        }
    }

    /// An edit for the present graph: mostly one that is accepted.
    pub fn any_edit(&self, random: &mut Random) -> Edit {
        let nodes = self.book.graph.nodes();
        if nodes == 0 || random.once_in(40) {
            let names = [0, 1, nodes as u32, NODES as u32 - 1, NODES as u32, 65_535, u32::MAX];
            let (start, end) = (*random.pick(&names), *random.pick(&names));
            return if random.once_in(2) { Edit::Insert(start, end) } else { Edit::Delete(start, end) };
        }
        let (start, end) = (random.below(nodes), random.below(nodes));
        let present = self.book.graph.has(start, end);
        let (start, end) = (start as u32, end as u32);
        let held = if random.once_in(2) { self.some_edge(random) } else { None };
        match (random.below(12), held) {
            (0, None) => Edit::Insert(start, end),
            (1, None) => Edit::Delete(start, end),
            (0, Some((start, end))) => Edit::Insert(start, end),
            (_, Some((start, end))) => Edit::Delete(start, end),
            _ if present => Edit::Delete(start, end),
            _ => Edit::Insert(start, end),
        }
    }

    /// An edge that is held.
    pub fn some_edge(&self, random: &mut Random) -> Option<(u32, u32)> {
        let nodes = self.book.graph.nodes();
        let first = random.below(nodes);
        let node = (0..nodes).map(|i| (first + i) % nodes).find(|node| !self.book.graph.ends[*node].is_empty())?;
        let ends: Vec<&usize> = self.book.graph.ends[node].iter().collect();
        Some((node as u32, **random.pick(&ends) as u32))
    }

    fn compare(&self, answer: Answer, wanted: Result<Report, u8>) {
        let said = match &wanted {
            Ok(report) => accepted(report),
            Err(number) => refused(*number),
        };
        self.same(answer == said, &format!("answer {answer:?}, not {said:?} ({wanted:?})"));
        self.same(self.room == self.wanted_room, "the change room differs");
        if self.session != self.wanted_session {
            let place = (0..self.session.len()).find(|i| self.session[*i] != self.wanted_session[*i]);
            self.same(false, &format!("the session differs at word {place:?}"));
        }
    }

    fn same(&self, same: bool, what: &str) {
        if !same {
            panic!("{}: {what}\nafter {:?}\nof {:?}", self.label, self.edits, self.case);
        }
    }
}
