//! Answers, and change lists in their room.

/// An accepted answer.
pub fn accepted(yes: bool, trials: u32, changes: usize) -> u64 {
    u64::from(yes) << 8 | u64::from(trials) << 16 | (changes as u64) << 40
}

/// A set of nodes.
#[derive(Default)]
pub struct NodeSet([u64; 8]);

impl NodeSet {
    pub fn add(&mut self, node: usize) {
        self.0[node / 64] |= 1 << (node % 64);
    }

    /// Calls with each node, ascending.
    pub fn each(&self, mut visit: impl FnMut(usize)) {
        for (place, word) in self.0.iter().enumerate() {
            let mut left = *word;
            while left != 0 {
                visit(place * 64 + left.trailing_zeros() as usize);
                left &= left - 1;
            }
        }
    }
}

/// A change list that is written to the front of its room.
pub struct Changes<'a> {
    room: &'a mut [i32],
    pub count: usize,
}

impl<'a> Changes<'a> {
    pub fn new(room: &'a mut [i32]) -> Changes<'a> {
        Changes { room, count: 0 }
    }

    /// Writes the changes of the states of a set at a node; the sign is 1 or -1.
    pub fn add(&mut self, node: usize, mut set: u32, sign: i32) {
        while set != 0 {
            let state = set.trailing_zeros() as usize + 1;
            self.room[self.count] = sign * (node * 64 + state) as i32;
            self.count += 1;
            set &= set - 1;
        }
    }
}
