//! Tables: the table of a rule (refusal 10), tables handed in (refusal 11), and tables in bytes.

use crate::formula::{Node, Rule};
use crate::refusal::room;
use crate::values::{Kind, RawSetUp, SetUp, Value, MAX_EVENTS};
use crate::Refusal;

/// "A rule's table may have up to 256 states" (document 02, F-12), and so may every table handed in but a trial's device.
pub const MAX_STATES: usize = 256;
/// "Devices stay at 64" (document 02, F-12).
pub const MAX_DEVICE_STATES: usize = 64;

/// "A table entry is a value and a next state".
#[derive(Clone, Copy, Debug, PartialEq, Eq, Hash)]
pub struct Entry {
    /// The value on the event.
    pub value: Value,
    /// The state after it.
    pub next: u8,
}

/// A table of 1 to 256 states whose values and next states are in range; "ordered by state, then event".
#[derive(Clone, Debug, PartialEq, Eq, Hash)]
pub struct Table {
    /// The kind of its values.
    kind: Kind,
    events: usize,
    entries: Vec<Entry>,
}

impl Table {
    /// The table of a rule: refusal 10.
    pub fn of_rule(set_up: &SetUp, rule: &Rule) -> Result<Table, Refusal> {
        let events = set_up.events();
        let demands = demands(rule);
        // "State 0 is the root's demands." States are taken in the order in which they are found, events rising, so that they
        // are "numbered by shortest sequence, then by the smaller sequence at the first difference".
        let mut states = vec![demands[0]];
        let mut entries = Vec::new();
        let mut done = 0;
        while done < states.len() {
            let mut values = [set_up.top(); MAX_EVENTS];
            let mut followers = [NodeSet::EMPTY; MAX_EVENTS];
            for node in states[done].iter() {
                match rule.nodes()[node] {
                    // "the value is the meet of the O values for that event (top if none)"
                    Node::Output(event, value) => {
                        let meet = &mut values[usize::from(event)];
                        *meet = set_up.meet(*meet, value);
                    }
                    // "the next state is the union of the demands of the parts of its G nodes for that event"
                    Node::After(event) => followers[usize::from(event)].add_all(&demands[node + 1]),
                    _ => unreachable!("a state is a set of G and O node numbers"),
                }
            }
            for (&value, follower) in values.iter().zip(&followers).take(events) {
                let next = match states.iter().position(|state| state == follower) {
                    Some(next) => next,
                    // 10: over 256 states, "which is 10's new limit" (document 02, F-12).
                    None if states.len() == MAX_STATES => return Err(Refusal::new(10)),
                    None => {
                        states.push(*follower);
                        states.len() - 1
                    }
                };
                entries.push(Entry { value, next: next as u8 });
            }
            done += 1;
        }
        Ok(Table { kind: set_up.kind(), events, entries })
    }

    /// How many states.
    pub fn states(&self) -> usize {
        self.entries.len() / self.events
    }

    /// The kind of its values.
    pub fn kind(&self) -> Kind {
        self.kind
    }

    /// How many events.
    pub fn events(&self) -> usize {
        self.events
    }

    /// The entry of a state and an event.
    pub fn entry(&self, state: usize, event: usize) -> Entry {
        debug_assert!(event < self.events);
        self.entries[state * self.events + event]
    }

    /// All entries, by state, then event.
    pub fn entries(&self) -> &[Entry] {
        &self.entries
    }

    /// Takes the entries out.
    pub fn into_entries(self) -> Vec<Entry> {
        self.entries
    }

    /// The values on an event sequence from a state, and the state reached.
    pub fn run(&self, start: usize, word: &[u8]) -> (Vec<Value>, usize) {
        let mut state = start;
        let values = word
            .iter()
            .map(|&event| {
                let Entry { value, next } = self.entry(state, usize::from(event));
                state = usize::from(next);
                value
            })
            .collect();
        (values, state)
    }

    /// The table in bytes.
    pub fn to_bytes(&self) -> Vec<u8> {
        in_bytes(self.kind, self.entries.iter().copied())
    }

    /// Writes the table into lent memory and returns its number of states; 13, two bytes an entry, five for a register.
    pub fn write_bytes(&self, lent: &mut [u8]) -> Result<usize, Refusal> {
        let bytes = self.to_bytes();
        room(lent, bytes.len())?;
        lent[..bytes.len()].copy_from_slice(&bytes);
        Ok(self.states())
    }
}

/// Entries in bytes, one behind another: a value, then a next state.
pub fn in_bytes(kind: Kind, entries: impl IntoIterator<Item = Entry>) -> Vec<u8> {
    let entries = entries.into_iter();
    let mut bytes = Vec::with_capacity(entries.size_hint().0 * kind.entry_bytes());
    for Entry { value, next } in entries {
        kind.push_value(value, &mut bytes);
        bytes.push(next);
    }
    bytes
}

/// A table handed in, with the number of its states and its start.
#[derive(Clone, Copy, Debug, PartialEq, Eq)]
pub struct Lent<'a> {
    /// How many states.
    pub states: usize,
    /// The start.
    pub start: usize,
    /// The entries in bytes.
    pub bytes: &'a [u8],
}

impl Lent<'_> {
    /// A device: at most 64 states.
    pub fn device(&self, set_up: &SetUp) -> Result<Table, Refusal> {
        self.within(set_up, MAX_DEVICE_STATES)
    }

    /// Any other table: at most 256 states (document 02, F-12).
    pub fn table(&self, set_up: &SetUp) -> Result<Table, Refusal> {
        self.within(set_up, MAX_STATES)
    }

    /// 11: "states not 1 to" so many, "entry count not states × events, start, value or next state too large". "A mask bit at or
    /// above the line count is refusal ... 11 in a table" (document 02, F-7).
    fn within(&self, set_up: &SetUp, most: usize) -> Result<Table, Refusal> {
        let refusal = Refusal::new(11);
        let (events, kind) = (set_up.events(), set_up.kind());
        if self.states > most || self.start >= self.states || self.bytes.len() != self.states * events * kind.entry_bytes() {
            return Err(refusal);
        }
        let of_bytes = |bytes: &[u8]| {
            let (value, next) = bytes.split_at(kind.value_bytes());
            Entry { value: kind.value_from(value), next: next[0] }
        };
        let entries: Vec<Entry> = self.bytes.chunks_exact(kind.entry_bytes()).map(of_bytes).collect();
        if !within_limits(set_up.raw(), self.states, &entries) {
            return Err(refusal);
        }
        Ok(Table { kind: set_up.kind(), events, entries })
    }
}

/// The limits of 11, without the start, for a table that is no device, of a set-up that 1 to 3 and 20 do not refuse.
pub(crate) fn within_limits(set_up: &RawSetUp, states: usize, entries: &[Entry]) -> bool {
    (1..=MAX_STATES).contains(&states)
        && entries.len() == states * set_up.events
        && entries.iter().all(|entry| set_up.has(entry.value) && usize::from(entry.next) < states)
}

/// Compiles a rule into lent memory and returns the number of states: refusals 1 to 3 (or 1, 20), 5 to 8, 23, 9, 10, 13.
pub fn compile(set_up: &RawSetUp, rule: &[u8], lent: &mut [u8]) -> Result<usize, Refusal> {
    let set_up = SetUp::new(set_up.clone())?;
    let rule = Rule::from_bytes(&set_up, rule)?;
    Table::of_rule(&set_up, &rule)?.write_bytes(lent)
}

/// "The demands of a node: T none; G and O themselves; A those of both parts; V those of its part; X those of its binder."
fn demands(rule: &Rule) -> Vec<NodeSet> {
    let nodes = rule.nodes();
    let mut demands = vec![NodeSet::EMPTY; nodes.len()];
    // Parts stand behind their node and are done first. A binder stands before its variables, so its number is put for its demands.
    let mut binders = NodeSet::EMPTY;
    for (number, node) in nodes.iter().enumerate().rev() {
        demands[number] = match node {
            Node::True => NodeSet::EMPTY,
            Node::Variable(_) => {
                let binder = NodeSet::of(rule.binder(number));
                binders.add_all(&binder);
                binder
            }
            Node::After(_) | Node::Output(..) => NodeSet::of(number),
            Node::Both => {
                let mut both = demands[number + 1];
                both.add_all(&demands[rule.second(number)]);
                both
            }
            Node::Greatest => demands[number + 1],
        };
    }
    // Then each binder's number gives way to its demands. No G lies between a node and the variables in its set, and 9 was tested, so
    // their binders stand before the node and are done.
    for number in 0..nodes.len() {
        let mut all = demands[number];
        for binder in all.take_out(&binders).iter() {
            all.add_all(&demands[binder]);
        }
        demands[number] = all;
    }
    demands
}

/// A set of node numbers, one bit each.
#[derive(Clone, Copy, PartialEq, Eq)]
struct NodeSet([u64; 4]);

impl NodeSet {
    const EMPTY: NodeSet = NodeSet([0; 4]);

    fn of(node: usize) -> NodeSet {
        let mut set = NodeSet::EMPTY;
        set.0[node / 64] = 1 << (node % 64);
        set
    }

    fn add_all(&mut self, other: &NodeSet) {
        for (word, other) in self.0.iter_mut().zip(other.0) {
            *word |= other;
        }
    }

    /// Takes out what both sets have.
    fn take_out(&mut self, other: &NodeSet) -> NodeSet {
        let mut taken = NodeSet::EMPTY;
        for (index, word) in self.0.iter_mut().enumerate() {
            taken.0[index] = *word & other.0[index];
            *word &= !other.0[index];
        }
        taken
    }

    /// The node numbers, rising.
    fn iter(&self) -> impl Iterator<Item = usize> + '_ {
        self.0.iter().enumerate().flat_map(|(index, &word)| {
            let mut rest = word;
            std::iter::from_fn(move || {
                if rest == 0 {
                    return None;
                }
                let bit = rest.trailing_zeros() as usize;
                rest &= rest - 1;
                Some(index * 64 + bit)
            })
        })
    }
}
