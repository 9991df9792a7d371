//! Triggers: states with a mask, a value and links, plain or inverted.

use std::collections::BTreeSet;

/// A state. Its links go to states by index, that is by their number less 1.
#[derive(Clone, Debug, PartialEq, Eq)]
pub struct State {
    /// The bits that are compared.
    pub mask: u16,
    /// What they are compared with. Bits outside the mask are kept and ignored.
    pub value: u16,
    /// The states linked to.
    pub links: BTreeSet<usize>,
    /// Whether it admits exactly the nodes that its plain form does not; a mask of zero admits every node all the same.
    pub inverted: bool,
}

/// A trigger: states by index.
#[derive(Clone, Debug, PartialEq, Eq)]
pub struct Trigger {
    /// The states, State One first.
    pub states: Vec<State>,
}

impl State {
    /// A state with its links as a word, bit 0 for State One.
    pub fn new(mask: u16, value: u16, links: u32, inverted: bool) -> State {
        State { mask, value, links: bits(links).collect(), inverted }
    }

    /// Whether the state admits a sample. A mask of zero admits every one, inverted or not.
    pub fn admits(&self, sample: u16) -> bool {
        match (self.mask, self.inverted) {
            (0, _) => true,
            (_, false) => self.agrees(sample),
            (_, true) => !self.agrees(sample),
        }
    }

    /// Whether value and sample agree in every bit that is 1 in the mask.
    fn agrees(&self, sample: u16) -> bool {
        (0..16).all(|bit| {
            let one = |word: u16| word >> bit & 1 == 1;
            !one(self.mask) || one(self.value) == one(sample)
        })
    }

    /// The links as a word.
    pub fn link_word(&self) -> u32 {
        self.links.iter().map(|link| 1 << link).sum()
    }
}

impl Trigger {
    /// The states of lists for each field; `inverted` has bit 0 for State One.
    pub fn new(masks: &[u16], values: &[u16], links: &[u32], inverted: u32) -> Trigger {
        let state = |i: usize| State::new(masks[i], values[i], links[i], bits(inverted).any(|bit| bit == i));
        Trigger { states: (0..masks.len()).map(state).collect() }
    }

    /// The inverted states as a word.
    pub fn inverted_word(&self) -> u32 {
        let states = self.states.iter().enumerate();
        states.filter(|(_, state)| state.inverted).map(|(place, _)| 1 << place).sum()
    }
}

/// The places of the bits that are 1, ascending.
pub fn bits(word: u32) -> impl Iterator<Item = usize> {
    (0..32).filter(move |bit| word >> bit & 1 == 1)
}
