//! Changes: a pair of a state and a node that began or ceased to stand.

/// A pair that began or ceased to stand.
///
/// As a number it has the size node times 64 plus state, and is negative where the pair ceased.
///
/// ```
/// use trigger_engine::Change;
///
/// let change = Change::from_number(-66);
/// assert_eq!(change, Change { state: 2, node: 1, begins: false });
/// assert_eq!(change.number(), -66);
/// ```
#[derive(Clone, Copy, Debug, PartialEq, Eq, Hash)]
pub struct Change {
    /// The state's number, from 1.
    pub state: u8,
    /// The node's number, from 0.
    pub node: u16,
    /// Whether the pair began to stand; otherwise it ceased.
    pub begins: bool,
}

impl Change {
    /// The change that a number of a change list means. The engine writes nodes below 512; of a larger size the node's
    /// low 16 bits are kept.
    pub fn from_number(number: i32) -> Change {
        let size = number.unsigned_abs();
        Change { state: (size % 64) as u8, node: (size / 64) as u16, begins: number > 0 }
    }

    /// The change as a number of a change list.
    pub fn number(self) -> i32 {
        let size = i32::from(self.node) * 64 + i32::from(self.state);
        if self.begins { size } else { -size }
    }
}

/// The changes of a call, ascending by node and then state.
#[derive(Clone, Debug)]
pub struct Changes<'a> {
    numbers: std::slice::Iter<'a, i32>,
}

impl<'a> Changes<'a> {
    pub(crate) fn new(numbers: &'a [i32]) -> Changes<'a> {
        Changes { numbers: numbers.iter() }
    }
}

impl Iterator for Changes<'_> {
    type Item = Change;

    fn next(&mut self) -> Option<Change> {
        self.numbers.next().copied().map(Change::from_number)
    }

    fn size_hint(&self) -> (usize, Option<usize>) {
        self.numbers.size_hint()
    }
}

impl ExactSizeIterator for Changes<'_> {}
