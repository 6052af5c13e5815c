//! Rules: from bytes to a checked formula and back, refusals 5 to 9 and 23, and the formula semantics.

mod semantics;

pub use semantics::{Formulas, Id};

use crate::refusal::room;
use crate::values::{Kind, SetUp, Value};
use crate::Refusal;

/// "1 to 256 nodes."
pub const MAX_NODES: usize = 256;
/// "twelve binders along one path. Make that the limit" (document 02, F-9).
pub const MAX_BINDERS: usize = 12;
/// A node, by document 01's letters.
#[derive(Clone, Copy, Debug, PartialEq, Eq, Hash)]
pub enum Node {
    /// "0 T: demands nothing."
    True,
    /// "1 X: variable; first = how many binders lie between it and its own (0 = innermost)."
    Variable(u8),
    /// "2 G: first = event; one part, the rule after that event."
    After(u8),
    /// "3 O: first = event, second = value; the value on that event is at or below it." A register's value is two masks (document 02, F-7).
    Output(u8, Value),
    /// "4 A: both of two parts."
    Both,
    /// "5 V: binder, greatest fixed point; one part."
    Greatest,
}

impl Node {
    /// The node of so many bytes, or nothing where 6 refuses it: "unknown kind, event or value too large, unused field not 0". "A mask bit
    /// at or above the line count is refusal 6 in a rule" (document 02, F-7), and the masks of a node that has no value are unused.
    pub fn from_bytes(set_up: &SetUp, bytes: &[u8]) -> Option<Node> {
        let (kind, first, value) = (bytes[0], bytes[1], set_up.kind().value_from(&bytes[2..]));
        let is_event = usize::from(first) < set_up.events();
        match (kind, first, value) {
            (0, 0, 0) => Some(Node::True),
            (1, index, 0) => Some(Node::Variable(index)),
            (2, _, 0) if is_event => Some(Node::After(first)),
            (3, _, _) if is_event && set_up.has(value) => Some(Node::Output(first, value)),
            (4, 0, 0) => Some(Node::Both),
            (5, 0, 0) => Some(Node::Greatest),
            _ => None,
        }
    }

    /// "kind, first, second; an unused field is 0"; for a register "kind, first, low mask, high mask" (document 02, F-7).
    pub fn to_bytes(self, kind: Kind) -> Vec<u8> {
        in_bytes(kind, &[self])
    }

    /// Adds the node in bytes.
    pub(crate) fn push_bytes(self, kind: Kind, bytes: &mut Vec<u8>) {
        let (letter, first, value) = match self {
            Node::True => (0, 0, 0),
            Node::Variable(index) => (1, index, 0),
            Node::After(event) => (2, event, 0),
            Node::Output(event, value) => (3, event, value),
            Node::Both => (4, 0, 0),
            Node::Greatest => (5, 0, 0),
        };
        bytes.extend([letter, first]);
        kind.push_value(value, bytes);
    }

    /// How many parts follow the node.
    pub fn parts(self) -> usize {
        match self {
            Node::True | Node::Variable(_) | Node::Output(..) => 0,
            Node::After(_) | Node::Greatest => 1,
            Node::Both => 2,
        }
    }
}

/// A rule that 5 to 9 and 23 do not refuse: "a node, then its parts".
#[derive(Clone, Debug, PartialEq, Eq)]
pub struct Rule {
    /// The kind of its values.
    kind: Kind,
    nodes: Vec<Node>,
    /// For A the number of its second part, for X the number of its binder, 0 for the others.
    links: Vec<u16>,
}

/// Where the next node stands.
struct Position {
    /// The innermost V around it.
    binder: Option<usize>,
    /// How many V nodes lie on its path from the root.
    binders: usize,
    /// The innermost G above it.
    after: Option<usize>,
    /// The A whose second part it is.
    second_of: Option<usize>,
}

impl Rule {
    /// Checks a rule in bytes: refusals 5 to 8, 23, 9.
    pub fn from_bytes(set_up: &SetUp, bytes: &[u8]) -> Result<Rule, Refusal> {
        let node_bytes = set_up.kind().node_bytes();
        // 5: "no nodes, over 256, or bytes left over after the last whole node".
        if bytes.is_empty() || bytes.len() > MAX_NODES * node_bytes || !bytes.len().is_multiple_of(node_bytes) {
            return Err(Refusal::new(5));
        }
        // 6: "place = lowest such node".
        let nodes = bytes
            .chunks_exact(node_bytes)
            .enumerate()
            .map(|(place, node)| Node::from_bytes(set_up, node).ok_or(Refusal::at(6, place)))
            .collect::<Result<Vec<Node>, Refusal>>()?;
        Rule::from_nodes(set_up.kind(), nodes)
    }

    /// Refusals 7, 8, 23, 9 on 1 to 256 nodes that 6 does not refuse, with values of this kind.
    pub(crate) fn from_nodes(kind: Kind, nodes: Vec<Node>) -> Result<Rule, Refusal> {
        check_count(&nodes)?;
        let links = link(&nodes)?;
        Ok(Rule { kind, nodes, links })
    }

    /// The kind of its values.
    pub fn kind(&self) -> Kind {
        self.kind
    }

    /// The nodes in prefix order.
    pub fn nodes(&self) -> &[Node] {
        &self.nodes
    }

    /// The number of an A node's second part; its first part, like that of G and V, is the node after it.
    pub fn second(&self, both: usize) -> usize {
        debug_assert_eq!(self.nodes[both], Node::Both);
        usize::from(self.links[both])
    }

    /// The number of an X node's binder.
    pub fn binder(&self, variable: usize) -> usize {
        debug_assert!(matches!(self.nodes[variable], Node::Variable(_)));
        usize::from(self.links[variable])
    }

    /// The rule in bytes.
    pub fn to_bytes(&self) -> Vec<u8> {
        in_bytes(self.kind, &self.nodes)
    }

    /// Writes the rule into lent memory and returns its size in nodes; 13, three bytes a node, six for a register.
    pub fn write_bytes(&self, lent: &mut [u8]) -> Result<usize, Refusal> {
        let bytes = self.to_bytes();
        room(lent, bytes.len())?;
        lent[..bytes.len()].copy_from_slice(&bytes);
        Ok(self.nodes.len())
    }
}

/// Nodes in bytes, one behind another.
pub fn in_bytes(kind: Kind, nodes: &[Node]) -> Vec<u8> {
    let mut bytes = Vec::with_capacity(nodes.len() * kind.node_bytes());
    for node in nodes {
        node.push_bytes(kind, &mut bytes);
    }
    bytes
}

/// "joining two rules by A" (document 02, F-14), in bytes: an A node, then its two parts. It may have over 256 nodes.
pub fn joined(kind: Kind, first: &[u8], second: &[u8]) -> Vec<u8> {
    [&Node::Both.to_bytes(kind), first, second].concat()
}

/// 7: "nodes run out (place = node count) or are left over (place = first of them)".
fn check_count(nodes: &[Node]) -> Result<(), Refusal> {
    let mut wanted = 1;
    for (place, node) in nodes.iter().enumerate() {
        if wanted == 0 {
            return Err(Refusal::at(7, place));
        }
        wanted = wanted - 1 + node.parts();
    }
    if wanted > 0 {
        return Err(Refusal::at(7, nodes.len()));
    }
    Ok(())
}

/// Finds second parts and binders of a finished tree: refusals 8, 23 and 9, each over the whole tree before the next.
fn link(nodes: &[Node]) -> Result<Vec<u16>, Refusal> {
    let mut links = vec![0; nodes.len()];
    // The binder around each V, so that a variable finds its own by going outwards.
    let mut around = vec![None; nodes.len()];
    let mut most_binders = 0;
    let mut lowest_bare = None;
    let mut waiting = vec![Position { binder: None, binders: 0, after: None, second_of: None }];
    for (number, &node) in nodes.iter().enumerate() {
        let position = waiting.pop().expect("7 has been tested");
        if let Some(both) = position.second_of {
            links[both] = number as u16;
        }
        let Position { binder, binders, after, .. } = position;
        most_binders = most_binders.max(binders);
        match node {
            Node::True | Node::Output(..) => {}
            Node::Variable(index) => {
                // 8: "variable without binder; place = lowest".
                let own = (0..index).fold(binder, |binder, _| binder.and_then(|v: usize| around[v]));
                let own = own.ok_or(Refusal::at(8, number))?;
                links[number] = own as u16;
                // 9: "A variable is in order when a G lies between it and its own binder. Refusal 9 is given only where none does"
                // (document 02, F-2); "place = lowest". Numbers rise along a path, so a G does if the innermost one is behind the binder.
                let in_order = after.is_some_and(|after| after > own);
                if !in_order && lowest_bare.is_none() {
                    lowest_bare = Some(number);
                }
            }
            Node::After(_) => waiting.push(Position { binder, binders, after: Some(number), second_of: None }),
            Node::Both => {
                waiting.push(Position { binder, binders, after, second_of: Some(number) });
                waiting.push(Position { binder, binders, after, second_of: None });
            }
            Node::Greatest => {
                around[number] = binder;
                waiting.push(Position { binder: Some(number), binders: binders + 1, after, second_of: None });
            }
        }
    }
    // 23: "a path with more than twelve V nodes, after 8 and before 9 for a rule" (document 02, F-9).
    if most_binders > MAX_BINDERS {
        return Err(Refusal::new(23));
    }
    match lowest_bare {
        Some(place) => Err(Refusal::at(9, place)),
        None => Ok(links),
    }
}
