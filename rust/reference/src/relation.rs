//! Sets of pairs (state, node).

/// A set of pairs, both by index.
#[derive(Clone, Debug, PartialEq, Eq)]
pub struct Relation {
    states: usize,
    held: Vec<bool>,
}

impl Relation {
    /// The pairs for which a test holds.
    pub fn of(states: usize, nodes: usize, test: impl Fn(usize, usize) -> bool) -> Relation {
        let pair = |place: usize| test(place % states, place / states);
        Relation { states, held: (0..states * nodes).map(pair).collect() }
    }

    /// Whether the pair is in the set.
    pub fn has(&self, state: usize, node: usize) -> bool {
        self.held[node * self.states + state]
    }

    /// Puts a pair in.
    pub fn add(&mut self, state: usize, node: usize) {
        self.held[node * self.states + state] = true;
    }

    /// Takes a pair out.
    pub fn remove(&mut self, state: usize, node: usize) {
        self.held[node * self.states + state] = false;
    }

    /// All pairs that could be in the set, ascending by node and then state.
    pub fn places(&self) -> impl Iterator<Item = (usize, usize)> + use<> {
        let states = self.states;
        (0..self.held.len()).map(move |place| (place % states, place / states))
    }

    /// The pairs of the set, ascending by node and then state.
    pub fn pairs(&self) -> impl Iterator<Item = (usize, usize)> {
        self.places().filter(|(state, node)| self.has(*state, *node))
    }

    /// The number of pairs.
    pub fn size(&self) -> usize {
        self.pairs().count()
    }
}
