//! The edges out of a node and into a node.

use crate::layout::{EDGES, NODES};

/// How many nodes are looked for among all edges before an index is built.
const SCANS: u32 = 4;
const NONE: u16 = u16::MAX;

/// The edges of a session, with an index that is built when it pays.
pub struct Edges<'a> {
    numbers: &'a [u32],
    scans: u32,
    index: Option<Index>,
}

/// For each node its first edge out; its last edge in, and for each edge the one before it into the same node.
struct Index {
    first: [u16; NODES + 1],
    head: [u16; NODES],
    next: [u16; EDGES],
}

impl<'a> Edges<'a> {
    /// The edges, no index built.
    pub fn new(numbers: &'a [u32]) -> Edges<'a> {
        Edges { numbers, scans: 0, index: None }
    }

    /// The edges with their index.
    pub fn indexed(numbers: &'a [u32]) -> Edges<'a> {
        Edges { index: Some(Index::new(numbers)), ..Edges::new(numbers) }
    }

    /// The edges out of a node.
    pub fn out_of(&self, node: usize) -> &'a [u32] {
        match &self.index {
            Some(index) => &self.numbers[index.first[node] as usize..index.first[node + 1] as usize],
            None => out_of(self.numbers, node),
        }
    }

    /// Calls with the start of each edge into a node.
    pub fn each_start(&mut self, node: usize, mut visit: impl FnMut(usize)) {
        if self.index.is_none() {
            if self.scans < SCANS {
                self.scans += 1;
                return scan(self.numbers, node, visit);
            }
            self.index = Some(Index::new(self.numbers));
        }
        let Some(index) = &self.index else { return };
        let mut place = index.head[node];
        while place != NONE {
            visit(self.numbers[place as usize] as usize / 512);
            place = index.next[place as usize];
        }
    }
}

/// The edges out of a node, found by halving.
pub fn out_of(numbers: &[u32], node: usize) -> &[u32] {
    let from = numbers.partition_point(|number| (*number as usize) < node * 512);
    let rest = &numbers[from..];
    &rest[..rest.partition_point(|number| (*number as usize) < (node + 1) * 512)]
}

/// Looks at all edges, a block at a time.
fn scan(numbers: &[u32], node: usize, mut visit: impl FnMut(usize)) {
    for block in numbers.chunks(32) {
        let found = block.iter().fold(false, |found, number| found | (number % 512 == node as u32));
        if found {
            for number in block {
                if number % 512 == node as u32 {
                    visit(*number as usize / 512);
                }
            }
        }
    }
}

impl Index {
    fn new(numbers: &[u32]) -> Index {
        let mut index = Index { first: [0; NODES + 1], head: [NONE; NODES], next: [NONE; EDGES] };
        let mut node = 0;
        for (place, (number, next)) in numbers.iter().zip(&mut index.next).enumerate() {
            let (start, end) = (*number as usize / 512, *number as usize % 512);
            while node <= start {
                index.first[node] = place as u16;
                node += 1;
            }
            *next = index.head[end];
            index.head[end] = place as u16;
        }
        index.first[node..].fill(numbers.len() as u16);
        index
    }
}
