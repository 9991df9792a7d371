//! The book: trigger, samples and edges as the calls give them, and what stands.

use crate::changes::changes;
use crate::firing::fires;
use crate::rules::{Given, delete_rules, insert_rules, load_rules, question_rules};
use crate::standing::{admitted, standing};
use crate::trials::trial_set;
use crate::walk::walk_order;
use crate::{Graph, Relation, Trigger};

/// What an accepted call reports.
#[derive(Clone, Debug, PartialEq, Eq)]
pub struct Report {
    /// Whether the trigger fires.
    pub fires: bool,
    /// The trial count.
    pub trials: usize,
    /// The change list.
    pub changes: Vec<i32>,
}

/// Trigger, graph and what stands in it. A refused call changes nothing and gives its number.
#[derive(Clone, Debug, PartialEq, Eq)]
pub struct Book {
    /// The trigger.
    pub trigger: Trigger,
    /// The present graph.
    pub graph: Graph,
    /// The pairs that stand in it.
    pub standing: Relation,
}

impl Book {
    /// A load into a session memory and with a change room of these lengths.
    pub fn load(memory: usize, room: usize, given: &Given) -> Result<(Book, Report), u8> {
        load_rules(memory, room, given)?;
        let trigger = Trigger::new(given.masks, given.values, given.links, given.inverted);
        let mut graph = Graph::new(given.samples);
        for (start, end) in given.starts.iter().zip(given.ends) {
            graph.ends[*start as usize].insert(*end as usize);
        }
        let nothing = Relation::of(trigger.states.len(), graph.nodes(), |_, _| false);
        let standing = standing(&trigger, &graph);
        let report = Report {
            fires: fires(&trigger, &graph),
            trials: admitted(&trigger, &graph).size(),
            changes: changes(&nothing, &standing),
        };
        let book = Book { trigger, graph, standing };
        Ok((book, report))
    }

    /// An insertion, with a change room of this length.
    pub fn insert(&mut self, room: usize, start: u32, end: u32) -> Result<Report, u8> {
        insert_rules(&self.graph, room, start, end)?;
        let edge = (start as usize, end as usize);
        self.graph.ends[edge.0].insert(edge.1);
        let trials = trial_set(&self.trigger, &self.graph, &self.standing, edge).size();
        let changes = self.stand_anew();
        Ok(Report { fires: self.fires(), trials, changes })
    }

    /// A deletion, with a change room of this length.
    pub fn delete(&mut self, room: usize, start: u32, end: u32) -> Result<Report, u8> {
        delete_rules(&self.graph, room, start, end)?;
        self.graph.ends[start as usize].remove(&(end as usize));
        let changes = self.stand_anew();
        Ok(Report { fires: self.fires(), trials: changes.iter().filter(|change| **change < 0).count(), changes })
    }

    /// Whether the state with this number stands at the node.
    pub fn matches(&self, state: u32, node: u32) -> Result<bool, u8> {
        question_rules(&self.trigger, &self.graph, state, node)?;
        Ok(self.standing.has(state as usize - 1, node as usize))
    }

    /// Whether the trigger fires.
    pub fn fires(&self) -> bool {
        fires(&self.trigger, &self.graph)
    }

    /// The walk order.
    pub fn order(&self) -> Vec<u8> {
        walk_order(&self.trigger)
    }

    /// Computes what stands again and gives the changes.
    fn stand_anew(&mut self) -> Vec<i32> {
        let after = standing(&self.trigger, &self.graph);
        let list = changes(&self.standing, &after);
        self.standing = after;
        list
    }
}
