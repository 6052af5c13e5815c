//! The set-ups, rules, files and tables that are timed. All are built at run time.

use gurvazze_reference::channel_file;
use gurvazze_reference::formula::{self, Node, Rule};
use gurvazze_reference::generate::RawTable;
use gurvazze_reference::table::{self, Entry};
use gurvazze_reference::values::{of_masks, Kind, RawNumbers, RawSetUp, RawValues, SetUp, Value, MAX_LINES};

/// The four-value set.
pub fn four(events: usize) -> SetUp {
    SetUp::new(RawSetUp::four_values(events)).expect("the four-value set is lawful")
}

/// The largest value set: sixteen values, the sets of four things.
pub fn sixteen(events: usize) -> SetUp {
    let meet = (0..16).flat_map(|b| (0..16).map(move |c| b & c)).collect();
    SetUp::new(RawSetUp::numbers(events, 16, 15, meet)).expect("intersections obey the laws")
}

/// Registers of sixteen lines.
pub fn lines(events: usize) -> SetUp {
    SetUp::new(RawSetUp::register(events, MAX_LINES)).expect("there may be so many lines")
}

/// A value of the four-value set as one of this set-up: itself, or the value of a register all of whose lines show it.
pub fn shown(set_up: &SetUp, value: Value) -> Value {
    match set_up.kind() {
        Kind::Numbers => value,
        Kind::Register => {
            let [low, high] = [value % 2, value / 2].map(|shows| u16::MAX * shows as u16);
            of_masks(low, high)
        }
    }
}

/// A rule over the four-value set in bytes, with values of this set-up.
pub fn bytes_of(set_up: &SetUp, nodes: &[Node]) -> Vec<u8> {
    let of_set_up = |node: &Node| match *node {
        Node::Output(event, value) => Node::Output(event, shown(set_up, value)),
        other => other,
    };
    formula::in_bytes(set_up.kind(), &nodes.iter().map(of_set_up).collect::<Vec<_>>())
}

/// The values of a set-up whose values are numbers.
pub fn numbers(set_up: &RawSetUp) -> &RawNumbers {
    match &set_up.values {
        RawValues::Numbers(numbers) => numbers,
        RawValues::Register { .. } => unreachable!("the values are numbers"),
    }
}

/// The channel file of a rule.
pub fn file(set_up: &SetUp, nodes: &[Node]) -> Vec<u8> {
    let bytes = formula::in_bytes(set_up.kind(), nodes);
    let rule = Rule::from_bytes(set_up, &bytes).expect("the rule is accepted");
    channel_file::to_text(set_up, &rule).into_bytes()
}

/// A file of this set-up with these tokens, whatever they are.
pub fn file_of_tokens(set_up: &RawSetUp, tokens: &[u8]) -> Vec<u8> {
    let (events, RawNumbers { values, top, meet }) = (set_up.events, numbers(set_up));
    let entries: Vec<String> = meet.iter().map(u8::to_string).collect();
    let lines = format!("events={events}\nvalues={values}\ntop={top}\nmeet={}\nrule=", entries.join(" "));
    [lines.as_bytes(), tokens, b"\n"].concat()
}

/// A conjunction of G and O nodes; as many nodes as asked for, few states.
pub fn wide_rule(set_up: &SetUp, size: usize) -> Vec<Node> {
    let mut nodes = Vec::new();
    let mut event = 0;
    while nodes.len() + 4 <= size {
        nodes.extend([Node::Both, Node::Output(event, 1), Node::Both, Node::After(event)]);
        nodes.push(Node::True);
        event = (event + 1) % set_up.events() as u8;
    }
    nodes.truncate(size - 1);
    // close what is open
    let mut waiting = 1usize;
    for node in &nodes {
        waiting = waiting + node.parts() - 1;
    }
    while waiting > 1 && nodes.len() + waiting > size {
        let node = nodes.pop().expect("there are nodes");
        waiting = waiting + 1 - node.parts();
    }
    nodes.extend(std::iter::repeat_n(Node::True, waiting));
    nodes
}

/// A loop of so many states on an event; these nodes stand before each G.
pub fn ring_with(event: u8, states: usize, before: impl Fn(usize) -> Vec<Node>) -> Vec<Node> {
    let mut nodes = vec![Node::Greatest];
    for state in 0..states {
        nodes.extend(before(state));
        nodes.push(Node::After(event));
    }
    nodes.push(Node::Variable(0));
    nodes
}

/// A loop of so many states on event 0.
pub fn ring(states: usize) -> Vec<Node> {
    ring_with(0, states, |_| Vec::new())
}

/// So many G nodes on the events in turn, one below the other: one state more than these.
pub fn chain(count: usize, events: usize) -> Vec<Node> {
    let after = |node: usize| Node::After((node % events) as u8);
    (0..count).map(after).chain([Node::True]).collect()
}

/// So many V or G nodes, one below the other.
pub fn nested(node: Node, count: usize) -> Vec<Node> {
    let mut nodes = vec![node; count];
    nodes.push(Node::True);
    nodes
}

/// These rules, joined by A.
pub fn joined(rules: &[Vec<Node>]) -> Vec<Node> {
    [vec![Node::Both; rules.len() - 1], rules.concat()].concat()
}

/// The same rule so many times, joined by A.
pub fn side_by_side(rule: &[Node], count: usize) -> Vec<Node> {
    joined(&vec![rule.to_vec(); count])
}

/// 246 nodes, 60 states, one event; each state has most of the G and O nodes. Loops of 3, 4 and 5 states with an O node
/// in each state, beside a loop of one state with 60 O nodes and 27 G nodes.
pub fn full_states() -> Vec<Node> {
    let output = |state: usize| vec![Node::Both, Node::Output(0, if state == 0 { 2 } else { 3 })];
    let loops = [3, 4, 5].map(|states| ring_with(0, states, output));
    let mut always = vec![Node::Greatest];
    for output in 0..60 {
        always.extend([Node::Both, Node::Output(0, if output % 2 == 0 { 1 } else { 3 })]);
    }
    for _ in 1..27 {
        always.extend([Node::Both, Node::After(0), Node::Variable(0)]);
    }
    always.extend([Node::After(0), Node::Variable(0)]);
    joined(&[&loops[..], &[always]].concat())
}

/// 246 nodes, 61 states, 16 events; each state has many of the G and O nodes, and its next sets on two events are never
/// the same. Each event has a loop of two or three states of its own, which any other event ends. Beside them is a loop
/// of one state on every event, with 37 O nodes, which adds an O node of the event to the next state.
pub fn full_states_of_events() -> Vec<Node> {
    let loops = (0..16).map(|event| ring_with(event, if event < 12 { 3 } else { 2 }, |_| Vec::new()));
    let mut always = vec![Node::Greatest];
    for output in 0..37 {
        always.extend([Node::Both, Node::Output(output % 16, if output % 2 == 0 { 1 } else { 3 })]);
    }
    for event in 0..16 {
        if event < 15 {
            always.push(Node::Both);
        }
        always.extend([Node::After(event), Node::Both, Node::Variable(0), Node::Output(event, 2)]);
    }
    joined(&loops.chain([always]).collect::<Vec<_>>())
}

/// 246 nodes, 60 states, one event; each state has one node. A loop with a T or two beside each G.
pub fn thin_states() -> Vec<Node> {
    ring_with(0, 60, |state| [Node::Both, Node::True].repeat(if state < 32 { 2 } else { 1 }))
}

/// A loop of states on event 0, to which other events return; with these values.
pub fn loop_table(set_up: &SetUp, states: usize, value: impl Fn(usize) -> Value) -> RawTable {
    let next = |state: usize, event: usize| if event == 0 { (state + 1) % states } else { state };
    table_of(set_up, states, |state, event| Entry { value: value(state), next: next(state, event) as u8 })
}

/// The table with these entries, which starts at 0.
pub fn table_of(set_up: &SetUp, states: usize, entry: impl Fn(usize, usize) -> Entry) -> RawTable {
    let entries = (0..states * set_up.events()).map(|at| entry(at / set_up.events(), at % set_up.events()));
    RawTable { states, start: 0, bytes: table::in_bytes(set_up.kind(), entries) }
}

/// Each state goes to the next one on event 0, and past it on event 1; the last goes to itself. All values are top.
pub fn branching(set_up: &SetUp, states: usize) -> RawTable {
    let next = |state: usize, event: usize| (state + event + 1).min(states - 1) as u8;
    table_of(set_up, states, |state, event| Entry { value: set_up.top(), next: next(state, event) })
}
