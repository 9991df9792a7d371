//! The numbered rules that a call can break.

use std::fmt;

/// The rule that a refused call broke, the first in their sequence.
///
/// Rules 1 and 2 speak of the frame program's input; no call of this library answers them.
///
/// ```
/// use trigger_engine::Rule;
///
/// assert_eq!(Rule::from_number(12), Some(Rule::EdgePresent));
/// assert_eq!(Rule::EdgePresent.number(), 12);
/// assert_eq!(Rule::EdgePresent.to_string(), "rule 12: the inserted edge is present");
/// ```
#[derive(Clone, Copy, Debug, PartialEq, Eq, PartialOrd, Ord, Hash)]
#[repr(u8)]
pub enum Rule {
    /// A line of input is no frame.
    NoFrame = 1,
    /// A frame comes at the wrong moment.
    WrongMoment = 2,
    /// Session memory or change room is too short.
    ShortMemory = 3,
    /// A load has no state, more than 32, or one given in part.
    States = 4,
    /// A link goes to a state above the number of states.
    Link = 5,
    /// A load has more than 512 nodes.
    Nodes = 6,
    /// A load has more than 2,048 edges, or one given in part.
    Edges = 7,
    /// A loaded edge names a node that the graph does not have.
    EdgeNode = 8,
    /// The loaded edges do not ascend strictly.
    EdgeOrder = 9,
    /// The session is not in layout.
    Layout = 10,
    /// An edit or question names a node or a state that is not there.
    Name = 11,
    /// The inserted edge is present.
    EdgePresent = 12,
    /// The inserted edge would be the 2,049th.
    EdgeLimit = 13,
    /// The deleted edge is absent.
    EdgeAbsent = 14,
}

impl Rule {
    /// Every rule in its sequence.
    pub const ALL: [Rule; 14] = [
        Rule::NoFrame,
        Rule::WrongMoment,
        Rule::ShortMemory,
        Rule::States,
        Rule::Link,
        Rule::Nodes,
        Rule::Edges,
        Rule::EdgeNode,
        Rule::EdgeOrder,
        Rule::Layout,
        Rule::Name,
        Rule::EdgePresent,
        Rule::EdgeLimit,
        Rule::EdgeAbsent,
    ];

    /// The rule's number, 1 to 14.
    pub fn number(self) -> u8 {
        self as u8
    }

    /// The rule with this number.
    pub fn from_number(number: u8) -> Option<Rule> {
        Rule::ALL.into_iter().find(|rule| rule.number() == number)
    }
}

impl fmt::Display for Rule {
    fn fmt(&self, out: &mut fmt::Formatter<'_>) -> fmt::Result {
        let text = match self {
            Rule::NoFrame => "the line is no frame",
            Rule::WrongMoment => "the frame comes at the wrong moment",
            Rule::ShortMemory => "the session memory or the change room is too short",
            Rule::States => "a trigger has 1 to 32 states, each given whole",
            Rule::Link => "a link goes to a state above the number of states",
            Rule::Nodes => "a graph has at most 512 nodes",
            Rule::Edges => "a graph has at most 2,048 edges, each given whole",
            Rule::EdgeNode => "a loaded edge names a node that is not there",
            Rule::EdgeOrder => "the loaded edges do not ascend strictly",
            Rule::Layout => "the session is not in layout",
            Rule::Name => "there is no such node or state",
            Rule::EdgePresent => "the inserted edge is present",
            Rule::EdgeLimit => "the inserted edge would be the 2,049th",
            Rule::EdgeAbsent => "the deleted edge is absent",
        };
        write!(out, "rule {}: {text}", self.number())
    }
}

impl std::error::Error for Rule {}
