//! Capture graphs: nodes with a sample, and edges.

use std::collections::BTreeSet;

/// A graph. Nodes are numbered from 0.
#[derive(Clone, Debug, PartialEq, Eq)]
pub struct Graph {
    /// The sample word of each node.
    pub samples: Vec<u16>,
    /// For each node the ends of its edges.
    pub ends: Vec<BTreeSet<usize>>,
}

impl Graph {
    /// A graph without edges.
    pub fn new(samples: &[u16]) -> Graph {
        Graph { samples: samples.to_vec(), ends: vec![BTreeSet::new(); samples.len()] }
    }

    /// The number of nodes.
    pub fn nodes(&self) -> usize {
        self.samples.len()
    }

    /// The edges, ascending by start and then end.
    pub fn edges(&self) -> impl Iterator<Item = (usize, usize)> {
        let of = |(start, ends): (usize, &BTreeSet<usize>)| -> Vec<(usize, usize)> {
            ends.iter().map(|end| (start, *end)).collect()
        };
        self.ends.iter().enumerate().flat_map(of)
    }

    /// The number of edges.
    pub fn edge_count(&self) -> usize {
        self.ends.iter().map(|ends| ends.len()).sum()
    }

    /// Whether the edge is held.
    pub fn has(&self, start: usize, end: usize) -> bool {
        self.ends[start].contains(&end)
    }
}
