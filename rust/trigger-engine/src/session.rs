//! A session with its memory.

use crate::change::Changes;
use crate::lent::{self, Answer, Load, MAX_STATES};
use crate::rule::Rule;

/// A state of a trigger.
#[derive(Clone, Copy, Debug, PartialEq, Eq)]
pub struct State {
    /// The bits of a sample that are compared. A mask of zero admits every node, inverted or not.
    pub mask: u16,
    /// What they are compared with; bits outside the mask are ignored.
    pub value: u16,
    /// The states linked to, bit 0 for State One and bit 31 for state 32.
    pub links: u32,
    /// Whether the state is inverted: it then admits exactly the nodes that it would not admit otherwise. A mask of zero
    /// is the one exception.
    pub inverted: bool,
}

/// What an accepted load or edit reports.
#[derive(Clone, Debug)]
pub struct Report<'a> {
    /// Whether the trigger fires.
    pub fires: bool,
    /// The number of pairs tried: at a load those admitted, at an insertion those that could have begun to stand, at a
    /// deletion those that ceased.
    pub trials: u32,
    changes: &'a [i32],
}

impl<'a> Report<'a> {
    /// The pairs that began or ceased to stand, ascending by node and then state.
    pub fn changes(&self) -> Changes<'a> {
        Changes::new(self.changes)
    }
}

/// A session: the memory that the engine works in, and the room for changes.
///
/// Before its first load a session holds nothing; edits and questions are refused with [`Rule::Layout`].
///
/// ```
/// use trigger_engine::{Rule, Session};
///
/// assert_eq!(Session::new().fires(), Err(Rule::Layout));
/// ```
#[derive(Clone, Debug)]
pub struct Session {
    words: Vec<u32>,
    room: Vec<i32>,
}

impl Session {
    /// A session that holds nothing yet.
    pub fn new() -> Session {
        Session { words: vec![0; lent::session_words()], room: vec![0; lent::change_places()] }
    }

    /// Loads a trigger and a graph: its samples, and its edges ascending by start and then end. What the session held
    /// before is gone, unless the load is refused. The changes are all pairs that stand. A trigger has up to
    /// [`MAX_STATES`] states.
    ///
    /// ```
    /// use trigger_engine::{Rule, Session, State};
    ///
    /// let any = State { mask: 0, value: 0x00FF, links: 1, inverted: false };
    /// let mut session = Session::new();
    /// let report = session.load(&[any], &[0x0000, 0xFFFF], &[(0, 1), (1, 0)])?;
    /// assert!(report.fires);
    /// assert_eq!(report.changes().len(), 2);
    ///
    /// let error = session.load(&[], &[], &[]).unwrap_err();
    /// assert_eq!(error, Rule::States);
    /// assert!(session.fires()?);
    ///
    /// // 32 states, each linked to the last one, and one state more.
    /// let wide = State { links: 1 << 31, ..any };
    /// let report = session.load(&[wide; 32], &[0x0000], &[(0, 0)])?;
    /// assert_eq!(report.changes().len(), 32);
    /// assert_eq!(session.load(&[wide; 33], &[0x0000], &[]).unwrap_err(), Rule::States);
    /// # Ok::<(), Rule>(())
    /// ```
    ///
    /// An inverted state hunts for anything but a word:
    ///
    /// ```
    /// use trigger_engine::{Change, Rule, Session, State};
    ///
    /// let busy = State { mask: 0xFFFF, value: 0x0000, links: 0, inverted: true };
    /// let mut session = Session::new();
    /// let report = session.load(&[busy], &[0x0000, 0x00A5], &[])?;
    /// let changes: Vec<Change> = report.changes().collect();
    /// assert_eq!(changes, [Change { state: 1, node: 1, begins: true }]);
    ///
    /// // A mask of zero hunts for nothing: it admits every node, inverted or not.
    /// let report = session.load(&[State { mask: 0, ..busy }], &[0x0000, 0x00A5], &[])?;
    /// assert_eq!(report.changes().len(), 2);
    /// # Ok::<(), Rule>(())
    /// ```
    pub fn load(&mut self, states: &[State], samples: &[u16], edges: &[(u32, u32)]) -> Result<Report<'_>, Rule> {
        let masks: Vec<u16> = states.iter().map(|state| state.mask).collect();
        let values: Vec<u16> = states.iter().map(|state| state.value).collect();
        let links: Vec<u32> = states.iter().map(|state| state.links).collect();
        let inverted = inverted_set(states);
        let (starts, ends): (Vec<u32>, Vec<u32>) = edges.iter().copied().unzip();
        let load =
            Load { masks: &masks, values: &values, links: &links, inverted, samples, starts: &starts, ends: &ends };
        let answer = lent::load(&mut self.words, &load, &mut self.room);
        self.report(answer)
    }

    /// Inserts an edge that is not there.
    ///
    /// ```
    /// use trigger_engine::{Change, Rule, Session, State};
    ///
    /// let state = State { mask: 0xFFFF, value: 5, links: 1, inverted: false };
    /// let mut session = Session::new();
    /// session.load(&[state], &[5], &[])?;
    /// let report = session.insert(0, 0)?;
    /// assert_eq!(report.trials, 1);
    /// let changes: Vec<Change> = report.changes().collect();
    /// assert_eq!(changes, [Change { state: 1, node: 0, begins: true }]);
    /// # Ok::<(), Rule>(())
    /// ```
    pub fn insert(&mut self, start: u32, end: u32) -> Result<Report<'_>, Rule> {
        let answer = lent::insert(&mut self.words, start, end, &mut self.room);
        self.report(answer)
    }

    /// Deletes an edge that is there.
    ///
    /// ```
    /// use trigger_engine::{Rule, Session, State};
    ///
    /// let state = State { mask: 0xFFFF, value: 5, links: 1, inverted: false };
    /// let mut session = Session::new();
    /// session.load(&[state], &[5, 5], &[(0, 1), (1, 0)])?;
    /// let report = session.delete(0, 1)?;
    /// assert!(!report.fires);
    /// assert!(report.changes().all(|change| !change.begins));
    /// assert_eq!(session.delete(0, 1).unwrap_err(), Rule::EdgeAbsent);
    /// # Ok::<(), Rule>(())
    /// ```
    pub fn delete(&mut self, start: u32, end: u32) -> Result<Report<'_>, Rule> {
        let answer = lent::delete(&mut self.words, start, end, &mut self.room);
        self.report(answer)
    }

    /// Whether the state with this number, from 1, stands at the node.
    pub fn matches(&self, state: u32, node: u32) -> Result<bool, Rule> {
        Ok(lent::matches(&self.words, state, node).accepted()?.yes())
    }

    /// Whether the trigger fires, that is, every state that a chain of links reaches from State One, itself included,
    /// stands at some node.
    ///
    /// ```
    /// use trigger_engine::{Change, Rule, Session, State};
    ///
    /// // State 2 is linked to State One and none to state 2: it does not hold the trigger back.
    /// let state = |value, links| State { mask: 0xFFFF, value, links, inverted: false };
    /// let mut session = Session::new();
    /// session.load(&[state(1, 0b00), state(2, 0b01)], &[1, 2], &[])?;
    /// assert!(session.fires()?);
    /// assert!(!session.matches(2, 1)?);
    ///
    /// // Its changes are told as those of any other state.
    /// let changes: Vec<Change> = session.insert(1, 0)?.changes().collect();
    /// assert_eq!(changes, [Change { state: 2, node: 1, begins: true }]);
    /// # Ok::<(), Rule>(())
    /// ```
    pub fn fires(&self) -> Result<bool, Rule> {
        Ok(lent::fires(&self.words).accepted()?.yes())
    }

    /// The numbers of the states in walk order: depth first from State One along links in ascending order, then the
    /// states that are not reached.
    ///
    /// ```
    /// use trigger_engine::{Rule, Session, State};
    ///
    /// let state = |links| State { mask: 0, value: 0, links, inverted: false };
    /// let mut session = Session::new();
    /// session.load(&[state(0b100), state(0), state(0b001)], &[], &[])?;
    /// assert_eq!(session.order()?, [1, 3, 2]);
    /// # Ok::<(), Rule>(())
    /// ```
    pub fn order(&self) -> Result<Vec<u8>, Rule> {
        let mut states = vec![0; MAX_STATES];
        let answer = lent::order(&self.words, &mut states).accepted()?;
        states.truncate(answer.changes());
        Ok(states)
    }

    /// The words of the session, in the layout of `docs/LAYOUT.md`. Two sessions with equal triggers, samples and edges have
    /// equal words, in whatever order the edges came and went.
    ///
    /// ```
    /// # use trigger_engine::{Rule, Session, State};
    /// let states = [State { mask: 0, value: 0, links: 1, inverted: false }];
    /// let mut loaded = Session::new();
    /// loaded.load(&states, &[1, 2], &[(0, 1), (1, 0)])?;
    /// let mut edited = Session::new();
    /// edited.load(&states, &[1, 2], &[(1, 1)])?;
    /// edited.insert(1, 0)?;
    /// edited.delete(1, 1)?;
    /// edited.insert(0, 1)?;
    /// assert_eq!(edited.words(), loaded.words());
    /// # Ok::<(), Rule>(())
    /// ```
    pub fn words(&self) -> &[u32] {
        &self.words
    }

    fn report(&self, answer: Answer) -> Result<Report<'_>, Rule> {
        let answer = answer.accepted()?;
        Ok(Report { fires: answer.yes(), trials: answer.trials(), changes: &self.room[..answer.changes()] })
    }
}

/// The inverted states as a set. With more states than the set has bits the load is refused.
fn inverted_set(states: &[State]) -> u32 {
    let bits = (0..u32::BITS).zip(states);
    bits.filter(|(_, state)| state.inverted).fold(0, |set, (bit, _)| set | 1 << bit)
}

impl Default for Session {
    fn default() -> Session {
        Session::new()
    }
}
