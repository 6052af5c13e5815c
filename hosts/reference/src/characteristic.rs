//! The rule of a table: the characteristic formula of a state.

use crate::formula::{in_bytes, Node, Rule, MAX_BINDERS, MAX_NODES};
use crate::refusal::room;
use crate::table::{Lent, Table, MAX_STATES};
use crate::values::{RawSetUp, SetUp};
use crate::Refusal;

/// The rule of a table from a start state: refusals 12 and 23. Writing stops at node 257, since the whole may be very long.
pub fn rule_of(table: &Table, start: usize) -> Result<Rule, Refusal> {
    Ok(Rule::from_nodes(table.kind(), nodes_of(table, start)?).expect("each rule so written is accepted as a rule"))
}

/// The nodes of that rule.
fn nodes_of(table: &Table, start: usize) -> Result<Vec<Node>, Refusal> {
    let mut writer = Writer { table, open: [None; MAX_STATES], depth: 0, deepest: 0, nodes: Vec::new() };
    writer.state(start)?;
    // 23: "a path with more than twelve V nodes, ... after 12 for a written one" (document 02, F-9).
    if usize::from(writer.deepest) > MAX_BINDERS {
        return Err(Refusal::new(23));
    }
    Ok(writer.nodes)
}

/// Writes the rule of a table handed in into lent memory and returns its size in nodes: refusals 1 to 3 (or 1,
/// 20), 11, 12, 23, 13.
pub fn write_rule(set_up: &RawSetUp, table: Lent<'_>, lent: &mut [u8]) -> Result<usize, Refusal> {
    let set_up = SetUp::new(set_up.clone())?;
    let nodes = nodes_of(&table.table(&set_up)?, table.start)?;
    let bytes = in_bytes(set_up.kind(), &nodes);
    room(lent, bytes.len())?;
    lent[..bytes.len()].copy_from_slice(&bytes);
    Ok(nodes.len())
}

struct Writer<'a> {
    table: &'a Table,
    /// For each state open on the path, how many binders lie around its own.
    open: [Option<u8>; MAX_STATES],
    /// How many states are open on the path, each with its V.
    depth: u8,
    /// The most that were open at once.
    deepest: u8,
    nodes: Vec<Node>,
}

impl Writer<'_> {
    fn state(&mut self, state: usize) -> Result<(), Refusal> {
        // "A state already open on the path is written as X."
        if let Some(around) = self.open[state] {
            return self.node(Node::Variable(self.depth - around - 1));
        }
        // "V, then for each event in rising order G event (rule of the next state), O event.value, joined by A nested to the
        // right."
        self.node(Node::Greatest)?;
        self.open[state] = Some(self.depth);
        self.depth += 1;
        self.deepest = self.deepest.max(self.depth);
        for event in 0..self.table.events() {
            let entry = self.table.entry(state, event);
            self.node(Node::Both)?;
            self.node(Node::After(event as u8))?;
            self.state(usize::from(entry.next))?;
            if event + 1 < self.table.events() {
                self.node(Node::Both)?;
            }
            self.node(Node::Output(event as u8, entry.value))?;
        }
        self.depth -= 1;
        self.open[state] = None;
        Ok(())
    }

    /// 12: "written rule over 256 nodes".
    fn node(&mut self, node: Node) -> Result<(), Refusal> {
        if self.nodes.len() == MAX_NODES {
            return Err(Refusal::new(12));
        }
        self.nodes.push(node);
        Ok(())
    }
}
