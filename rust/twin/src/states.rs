//! The states of a trigger, ready for sets of states in a word.

use crate::layout::{HALF, INVERTED_AT, LINKS_AT, MASKS_AT, SESSION, VALUES_AT};

/// Masks, values and links, those of places past the count zero, and the set of turned states: those that admit where
/// value and sample do not agree. There are at least one and at most `WIDTH` states.
pub struct States<const WIDTH: usize> {
    pub count: usize,
    pub masks: [u16; WIDTH],
    pub values: [u16; WIDTH],
    pub links: [u32; WIDTH],
    pub turned: u32,
}

/// The set of the first so many states, one at least.
pub fn first_states(count: usize) -> u32 {
    u32::MAX >> (u32::BITS as usize - count)
}

impl<const WIDTH: usize> States<WIDTH> {
    /// Reads the states of a session.
    pub fn read(fixed: &[u32; SESSION], count: usize) -> States<WIDTH> {
        let words = |at: usize| std::array::from_fn(|state| fixed[at + state] as u16);
        States {
            count,
            masks: words(MASKS_AT),
            values: words(VALUES_AT),
            links: std::array::from_fn(|state| fixed[LINKS_AT + state]),
            turned: turned::<WIDTH>(fixed),
        }
    }

    /// The set of all states.
    pub fn all(&self) -> u32 {
        first_states(self.count)
    }

    /// Whether the trigger fires where these states have a mark: every state reached from State One has one.
    pub fn fires(&self, marked: u32) -> bool {
        // What stands at some node is closed under links: these are followed only where marks are not those of a graph.
        marked == self.all() || marked & 1 == 1 && (self.is_closed(marked) || self.reached() & !marked == 0)
    }

    /// Whether no link leads out of a set. All states are gone through, which is vector code.
    fn is_closed(&self, set: u32) -> bool {
        let links = self.links.iter().enumerate();
        links.fold(0, |all, (state, links)| all | if set >> state & 1 == 1 { *links } else { 0 }) & !set == 0
    }

    /// The states that chains of links lead to from State One, itself included.
    fn reached(&self) -> u32 {
        let (mut reached, mut found) = (1, 1);
        while found != 0 {
            found = self.targets(found) & !reached;
            reached |= found;
        }
        reached
    }

    /// The states that admit a sample.
    pub fn admitting(&self, sample: u32) -> u32 {
        let sample = sample as u16;
        let agreeing = set::<WIDTH>(|state| (sample ^ self.values[state]) & self.masks[state] == 0);
        (agreeing ^ self.turned) & self.all()
    }

    /// For each state the set of states with a link to it.
    pub fn callers(&self) -> Callers<WIDTH> {
        let mut callers = [0; WIDTH];
        for (state, links) in self.links.iter().enumerate() {
            let mut left = *links;
            while left != 0 {
                callers[left.trailing_zeros() as usize % WIDTH] |= 1 << state;
                left &= left - 1;
            }
        }
        Callers(callers)
    }

    /// The states of a set that have a link outside another set.
    pub fn uncarried(&self, mut set: u32, reached: u32) -> u32 {
        let mut uncarried = 0;
        while set != 0 {
            let state = set.trailing_zeros() as usize % WIDTH;
            if self.links[state] & !reached != 0 {
                uncarried |= 1 << state;
            }
            set &= set - 1;
        }
        uncarried
    }

    /// All links of the states of a set.
    pub fn targets(&self, mut set: u32) -> u32 {
        let mut targets = 0;
        while set != 0 {
            targets |= self.links[set.trailing_zeros() as usize % WIDTH];
            set &= set - 1;
        }
        targets
    }
}

/// The states for which a test holds, gathered in half words.
fn set<const WIDTH: usize>(test: impl Fn(usize) -> bool) -> u32 {
    let bits: [u16; WIDTH] = std::array::from_fn(|state| if test(state) { 1 << (state % HALF) } else { 0 });
    let halves = bits.chunks_exact(HALF).map(|half| half.iter().fold(0, |all, bit| all | bit));
    halves.rev().fold(0, |set, half| set << HALF | u32::from(half))
}

/// The turned states: the inverted ones without those of mask zero, which admit every node. Told once for all nodes.
fn turned<const WIDTH: usize>(fixed: &[u32; SESSION]) -> u32 {
    let inverted = fixed[INVERTED_AT];
    // The session's words are tested: a compiler that tests the short masks stores them piece by piece.
    if inverted == 0 { 0 } else { inverted & set::<WIDTH>(|state| fixed[MASKS_AT + state] != 0) }
}

/// For each state the set of states with a link to it.
pub struct Callers<const WIDTH: usize>([u32; WIDTH]);

impl<const WIDTH: usize> Callers<WIDTH> {
    /// The states that have a link into a set.
    pub fn into(&self, mut set: u32) -> u32 {
        let mut callers = 0;
        while set != 0 {
            callers |= self.0[set.trailing_zeros() as usize % WIDTH];
            set &= set - 1;
        }
        callers
    }
}
