//! Seeded random inputs, good and damaged, for property tests and for comparing two versions. Equal seeds give equal inputs.

use crate::formula::{self, joined, Node, Rule, MAX_BINDERS, MAX_NODES};
use crate::table::{self, Entry, Table, MAX_DEVICE_STATES, MAX_STATES};
use crate::tool::{Call, Wheel, CHANNELS, MAX_PER_TURN, MAX_ROWS, MAX_TOTAL};
use crate::values::{masks_of, of_masks, Kind, RawNumbers, RawSetUp, RawValues, SetUp, Value, MAX_LINES, MAX_VALUES};
use crate::{channel_file, characteristic};

/// A xorshift generator.
#[derive(Clone, Debug)]
pub struct Generator {
    state: u64,
}

/// A table as it is handed in: any numbers, any bytes.
#[derive(Clone, Debug, PartialEq, Eq)]
pub struct RawTable {
    /// How many states it claims.
    pub states: usize,
    /// The start.
    pub start: usize,
    /// The entries in bytes.
    pub bytes: Vec<u8>,
}

impl RawTable {
    /// One event, one number as value: a chain of states whose last returns to itself.
    pub fn chain(states: usize, value: u8) -> RawTable {
        RawTable::chain_of(Kind::Numbers, states, value.into())
    }

    /// The same with a value of this kind.
    pub fn chain_of(kind: Kind, states: usize, value: Value) -> RawTable {
        let entries = (0..states).map(|state| Entry { value, next: (state + 1).min(states - 1) as u8 });
        RawTable { states, start: 0, bytes: table::in_bytes(kind, entries) }
    }

    /// The table as the calls take it.
    pub fn lent(&self) -> crate::table::Lent<'_> {
        crate::table::Lent { states: self.states, start: self.start, bytes: &self.bytes }
    }
}

/// These tokens under so many binders.
pub fn under(binders: usize, tokens: &str) -> String {
    "V ".repeat(binders) + tokens
}

/// `V G0 (V A X1 A X1 G0)^k X0`, with any number of `A X1` in each of its k brackets: each inner binder has its outer one's demands so
/// often, so that a walk that does not mark what it met takes as many steps as that number raised to k.
pub fn inner_binders(brackets: usize, variables: usize) -> String {
    let bracket = format!("V {}G0 ", "A X1 ".repeat(variables));
    format!("V G0 {}X0", bracket.repeat(brackets))
}

/// The binders around a part.
#[derive(Clone, Copy, Default)]
struct Around {
    /// How many there are.
    binders: usize,
    /// How many of them lie below the last G, so that none lies between them and a variable here.
    near: usize,
}

impl Around {
    /// Around the parts of a node that stands here.
    fn parts_of(self, node: Node) -> Around {
        match node {
            Node::Greatest => Around { binders: self.binders + 1, near: self.near + 1 },
            Node::After(_) => Around { near: 0, ..self },
            _ => self,
        }
    }
}

/// Each node of a whole tree, and the binders around it.
fn with_binders(nodes: &[Node]) -> impl Iterator<Item = (Node, Around)> + '_ {
    let mut waiting = vec![Around::default()];
    nodes.iter().map(move |&node| {
        let around = waiting.pop().expect("the tree is whole");
        waiting.extend(std::iter::repeat_n(around.parts_of(node), node.parts()));
        (node, around)
    })
}

/// Whether some variable of a rule stands where document 01 alone has none: "The root and the part of V are closed; the part of G is
/// open; the parts of A are as A is." Document 02's F-2 accepts such a rule where a G lies further out.
pub fn has_variable_under_inner_binder(rule: &Rule) -> bool {
    with_binders(rule.nodes()).any(|(node, around)| matches!(node, Node::Variable(_)) && around.near > 0)
}

/// Whether some path of a rule has as many V nodes as a path may have (document 02, F-9).
pub fn has_most_binders(rule: &Rule) -> bool {
    with_binders(rule.nodes()).any(|(_, around)| around.binders == MAX_BINDERS)
}

/// Numbers of the first lines of a file, or of a set-up, that are out of range; some of them wrap to a good byte.
const LARGE: [usize; 8] = [16, 17, 18, 64, 255, 256, 258, 999];

/// Numbers that a mask of a file may be, the last ones of no 16 bits.
const LARGE_MASKS: [usize; 10] = [255, 256, 32_767, 32_768, 65_534, 65_535, 65_536, 65_537, 98_304, 99_999];

impl Generator {
    /// A generator for a seed.
    pub fn new(seed: u64) -> Generator {
        // The state must not be 0; near seeds are set apart.
        let state = (seed ^ 0x9e37_79b9_7f4a_7c15).wrapping_mul(0xbf58_476d_1ce4_e5b9) | 1;
        let mut generator = Generator { state };
        for _ in 0..8 {
            generator.bits();
        }
        generator
    }

    /// The next 64 bits.
    pub fn bits(&mut self) -> u64 {
        self.state ^= self.state << 13;
        self.state ^= self.state >> 7;
        self.state ^= self.state << 17;
        self.state.wrapping_mul(0x2545_f491_4f6c_dd1d)
    }

    /// A number below the bound, which is not 0.
    pub fn below(&mut self, bound: usize) -> usize {
        ((self.bits() >> 32) as usize) % bound
    }

    /// A number from low to high, both included.
    pub fn between(&mut self, low: usize, high: usize) -> usize {
        low + self.below(high - low + 1)
    }

    /// True once in so many times.
    pub fn once_in(&mut self, times: usize) -> bool {
        self.below(times) == 0
    }

    /// One of these.
    pub fn one_of<T: Copy>(&mut self, these: &[T]) -> T {
        these[self.below(these.len())]
    }

    /// Bytes of any kind.
    pub fn bytes(&mut self, length: usize) -> Vec<u8> {
        (0..length).map(|_| self.bits() as u8).collect()
    }

    // Set-ups.

    /// A lawful set-up. Its values stand for sets closed under intersection, as in every finite meet-semilattice with a top.
    pub fn set_up(&mut self) -> SetUp {
        let events = if self.once_in(8) { self.between(1, 16) } else { self.between(1, 3) };
        let raw = if self.once_in(4) { RawSetUp::four_values(events) } else { self.lawful(events) };
        SetUp::new(raw).expect("intersections obey the laws")
    }

    fn lawful(&mut self, events: usize) -> RawSetUp {
        let members = self.between(0, 6);
        let full = (1usize << members) - 1;
        let wanted = self.between(1, MAX_VALUES);
        let mut sets = vec![full];
        for _ in 0..16 {
            let set = self.below(full + 1);
            let mut more = sets.clone();
            more.extend(sets.iter().map(|other| other & set));
            more.sort_unstable();
            more.dedup();
            if more.len() <= wanted {
                sets = more;
            }
        }
        // Values are numbered in any order.
        for index in (1..sets.len()).rev() {
            let other = self.below(index + 1);
            sets.swap(index, other);
        }
        let number = |set: usize| sets.iter().position(|&other| other == set).expect("closed under intersection");
        let meet = sets.iter().flat_map(|b| sets.iter().map(move |c| b & c)).map(|set| number(set) as u8).collect();
        RawSetUp::numbers(events, sets.len(), number(full), meet)
    }

    /// A set-up of a register (document 02, F-7), often of as many lines as there may be.
    pub fn register(&mut self) -> SetUp {
        let events = if self.once_in(8) { self.between(1, 16) } else { self.between(1, 3) };
        let lines = match self.below(4) {
            0 => MAX_LINES,
            1 => self.between(1, MAX_LINES),
            _ => self.between(1, 4),
        };
        SetUp::new(RawSetUp::register(events, lines)).expect("the numbers are in their ranges")
    }

    /// A set-up of either kind.
    pub fn any_set_up(&mut self) -> SetUp {
        if self.once_in(3) {
            self.register()
        } else {
            self.set_up()
        }
    }

    /// A set-up of this kind.
    pub fn set_up_of(&mut self, kind: Kind) -> SetUp {
        match kind {
            Kind::Numbers => self.set_up(),
            Kind::Register => self.register(),
        }
    }

    /// A set-up damaged in one way. A damaged entry may by chance be lawful again, so the refusal is for the caller to find.
    pub fn damaged_set_up(&mut self) -> RawSetUp {
        let RawSetUp { mut events, values: RawValues::Numbers(mut raw) } = self.set_up().raw().clone() else {
            unreachable!("the set-up is one of numbers");
        };
        let RawNumbers { values, .. } = raw;
        match self.below(10) {
            0 => events = if self.once_in(3) { 0 } else { self.one_of(&LARGE[1..]) },
            1 => raw.values = if self.once_in(3) { 0 } else { self.one_of(&LARGE[1..]) },
            2 => raw.top = if self.once_in(2) { values } else { values + self.one_of(&LARGE) },
            3 => drop(raw.meet.pop()),
            4 => raw.meet.push(0),
            5 => raw.meet.clear(),
            6 => {
                let at = self.below(raw.meet.len());
                raw.meet[at] = self.one_of(&[values as u8, 16, 255]).max(values as u8);
            }
            // One entry: idempotence, commutativity or top.
            7 => {
                let at = self.below(raw.meet.len());
                raw.meet[at] = self.below(values) as u8;
            }
            // Two entries that mirror each other: top or associativity.
            8 => {
                let (b, c, value) = (self.below(values), self.below(values), self.below(values) as u8);
                raw.meet[b * values + c] = value;
                raw.meet[c * values + b] = value;
            }
            _ => raw.top = self.below(values),
        }
        RawSetUp { events, values: RawValues::Numbers(raw) }
    }

    /// A set-up of a register that 1 or 20 refuses.
    pub fn damaged_register(&mut self) -> RawSetUp {
        let RawSetUp { mut events, values: RawValues::Register { mut lines } } = *self.register().raw() else {
            unreachable!("the set-up is one of a register");
        };
        let which = self.below(5);
        if which < 2 {
            events = if self.once_in(3) { 0 } else { self.one_of(&LARGE[1..]) };
        }
        if which > 0 {
            lines = if self.once_in(3) { 0 } else { self.one_of(&LARGE[1..]) };
        }
        RawSetUp::register(events, lines)
    }

    /// A set-up of this kind damaged in one way.
    pub fn damaged_set_up_of(&mut self, kind: Kind) -> RawSetUp {
        match kind {
            Kind::Numbers => self.damaged_set_up(),
            Kind::Register => self.damaged_register(),
        }
    }

    // Values.

    /// A value of a set-up.
    pub fn value(&mut self, set_up: &SetUp) -> Value {
        match set_up.raw().values {
            RawValues::Numbers(RawNumbers { values, .. }) => self.below(values) as Value,
            RawValues::Register { lines } => self.masks(lines),
        }
    }

    /// A value of a register: open, with one or two bits less than that, any, or a level on each line.
    fn masks(&mut self, lines: usize) -> Value {
        let all = u16::MAX >> (MAX_LINES - lines);
        let (mut low, mut high) = (all, all);
        match self.below(6) {
            0 => {}
            1 | 2 => {
                for _ in 0..self.between(1, 2) {
                    let mask = if self.once_in(2) { &mut low } else { &mut high };
                    *mask &= !(1 << self.below(lines));
                }
            }
            3 => (low, high) = (self.bits() as u16 & all, self.bits() as u16 & all),
            _ => {
                low = self.bits() as u16 & all;
                high = all & !low;
            }
        }
        of_masks(low, high)
    }

    /// A value that is none of the set-up's; nothing where each is one, as with 16 lines. Of numbers it fits a byte.
    fn no_value(&mut self, set_up: &SetUp) -> Option<Value> {
        match set_up.raw().values {
            RawValues::Numbers(RawNumbers { values, .. }) => Some(self.one_of(&[values as Value, 16, 255])),
            RawValues::Register { lines: MAX_LINES } => None,
            RawValues::Register { lines } => {
                // A bit at the line count, one above it, or all of them.
                let (mut low, mut high) = masks_of(self.masks(lines));
                let bits = match self.below(4) {
                    0 | 1 => 1 << lines,
                    2 => 1 << self.between(lines, MAX_LINES - 1),
                    _ => u16::MAX << lines,
                };
                *if self.once_in(2) { &mut low } else { &mut high } |= bits;
                Some(of_masks(low, high))
            }
        }
    }

    // Rules.

    /// A rule; most are small.
    pub fn rule(&mut self, set_up: &SetUp) -> Rule {
        if self.once_in(4) {
            return self.rule_of_binders(set_up);
        }
        let size = if self.once_in(8) { self.between(1, MAX_NODES) } else { self.between(1, 24) };
        self.rule_of_size(set_up, size)
    }

    /// A rule of so many nodes, 1 to 256.
    pub fn rule_of_size(&mut self, set_up: &SetUp, size: usize) -> Rule {
        let mut nodes = Vec::with_capacity(size);
        self.part(set_up, size, Around::default(), &mut nodes);
        Rule::from_nodes(set_up.kind(), nodes).expect("no refusal holds of the rule")
    }

    /// A part of so many nodes.
    fn part(&mut self, set_up: &SetUp, size: usize, around: Around, nodes: &mut Vec<Node>) {
        let node = if size == 1 {
            self.leaf(set_up, around)
        } else if size >= 3 && !self.once_in(3) {
            Node::Both
        } else if around.binders < MAX_BINDERS && self.once_in(3) {
            Node::Greatest
        } else {
            Node::After(self.below(set_up.events()) as u8)
        };
        nodes.push(node);
        let within = around.parts_of(node);
        match node.parts() {
            0 => {}
            1 => self.part(set_up, size - 1, within, nodes),
            _ => {
                let first = self.between(1, size - 2);
                self.part(set_up, first, within, nodes);
                self.part(set_up, size - 1 - first, within, nodes);
            }
        }
    }

    /// A part of one node: mostly a variable where a G lies between it and some binder.
    fn leaf(&mut self, set_up: &SetUp, around: Around) -> Node {
        if around.near < around.binders && !self.once_in(4) {
            Node::Variable(self.between(around.near, around.binders - 1) as u8)
        } else if self.once_in(5) {
            Node::True
        } else {
            Node::Output(self.below(set_up.events()) as u8, self.value(set_up))
        }
    }

    /// A rule of nested binders, at times of as many as a path may have.
    pub fn rule_of_binders(&mut self, set_up: &SetUp) -> Rule {
        let binders = if self.once_in(4) { self.between(MAX_BINDERS - 2, MAX_BINDERS) } else { self.between(1, 6) };
        Rule::from_nodes(set_up.kind(), self.nested_binders(set_up, binders)).expect("no refusal holds of the rule")
    }

    /// So many binders on one path, at times without a G between two of them. Each has variables of outer binders beside it, and at times
    /// other parts, before the rest of the path or behind it.
    fn nested_binders(&mut self, set_up: &SetUp, binders: usize) -> Vec<Node> {
        let mut nodes = Vec::new();
        let mut behind = Vec::new();
        let mut around = Around::default();
        for _ in 0..binders {
            nodes.push(Node::Greatest);
            around = around.parts_of(Node::Greatest);
            for _ in 0..self.below(3) {
                let size = if self.once_in(8) { self.between(2, 5) } else { 1 };
                let mut beside = Vec::with_capacity(size);
                self.part(set_up, size, around, &mut beside);
                nodes.push(Node::Both);
                if self.once_in(2) {
                    nodes.append(&mut beside);
                } else {
                    behind.push(beside);
                }
            }
            if !self.once_in(4) {
                let after = Node::After(self.below(set_up.events()) as u8);
                nodes.push(after);
                around = around.parts_of(after);
            }
        }
        nodes.push(self.leaf(set_up, around));
        nodes.extend(behind.into_iter().rev().flatten());
        nodes
    }

    /// Nested binders: one less than a path may have, as many, or one or two more.
    fn about_most_binders(&mut self, set_up: &SetUp) -> Vec<Node> {
        let binders = self.between(MAX_BINDERS - 1, MAX_BINDERS + 2);
        self.nested_binders(set_up, binders)
    }

    /// A whole tree: a rule, or at times about as many nested binders as a path may have.
    fn tree(&mut self, set_up: &SetUp) -> Vec<Node> {
        if self.once_in(4) {
            self.about_most_binders(set_up)
        } else {
            self.rule(set_up).nodes().to_vec()
        }
    }

    /// A rule of loops of different lengths, which has many states and often too many; at times all of them are on one event.
    pub fn rule_of_loops(&mut self, set_up: &SetUp) -> Rule {
        let loops = self.between(1, 4);
        let same_event = self.once_in(2).then(|| self.below(set_up.events()));
        let mut nodes = Vec::new();
        for index in 0..loops {
            if index + 1 < loops {
                nodes.push(Node::Both);
            }
            let event = same_event.unwrap_or_else(|| self.below(set_up.events()));
            let length = self.one_of(&[1, 2, 3, 4, 5, 7, 8, 13, 16, 17]);
            self.add_loop(set_up, event, length, &mut nodes);
        }
        Rule::from_nodes(set_up.kind(), nodes).expect("no refusal holds of the rule")
    }

    /// A loop of so many G nodes, some of them with a demand before them.
    fn add_loop(&mut self, set_up: &SetUp, event: usize, length: usize, nodes: &mut Vec<Node>) {
        let event = event as u8;
        nodes.push(Node::Greatest);
        for _ in 0..length {
            if self.once_in(3) {
                nodes.extend([Node::Both, Node::Output(event, self.value(set_up))]);
            }
            nodes.push(Node::After(event));
        }
        nodes.push(Node::Variable(0));
    }

    /// A rule whose table has so many states, 1 to 256: this event again and again, with demands on the way as far as nodes are left.
    pub fn rule_of_states(&mut self, set_up: &SetUp, event: usize, states: usize) -> Rule {
        let event = event as u8;
        // The empty set is a state, and so is a demand at the end.
        let last = if states > 1 { Node::Output(event, self.value(set_up)) } else { Node::True };
        let steps = states.saturating_sub(2);
        let mut left = (MAX_NODES - steps - 1) / 2;
        let mut nodes = Vec::new();
        for step in 0..steps {
            // As many demands as there is room for, anywhere.
            if left > 0 && self.below(steps - step) < left {
                left -= 1;
                nodes.extend([Node::Both, Node::Output(event, self.value(set_up))]);
            }
            nodes.push(Node::After(event));
        }
        nodes.push(last);
        Rule::from_nodes(set_up.kind(), nodes).expect("no refusal holds of the rule")
    }

    /// A rule of many states on one event, more than a device may have: at times as many as there may be, or too many.
    pub fn large_rule(&mut self, set_up: &SetUp, event: usize) -> Rule {
        let lengths = match self.below(8) {
            // With more than one event, 255 or 240 states and the empty set; then too many.
            0 => &[15, 17][..],
            1 => &[15, 16],
            2 => &[16, 17],
            3 => &[5, 7, 9],
            4 => {
                let length = self.between(MAX_DEVICE_STATES, 150);
                return self.rule_of_loop(set_up, event, length);
            }
            5 => {
                let states = self.between(MAX_DEVICE_STATES + 1, MAX_STATES);
                return self.rule_of_states(set_up, event, states);
            }
            _ => {
                let states = self.one_of(&[MAX_DEVICE_STATES, MAX_DEVICE_STATES + 1, MAX_STATES - 1, MAX_STATES]);
                return self.rule_of_states(set_up, event, states);
            }
        };
        let mut nodes = vec![Node::Both; lengths.len() - 1];
        for &length in lengths {
            self.add_loop(set_up, event, length, &mut nodes);
        }
        Rule::from_nodes(set_up.kind(), nodes).expect("no refusal holds of the rule")
    }

    /// A rule of two loops that has too many states.
    pub fn rule_of_too_many_states(&mut self, set_up: &SetUp) -> Rule {
        let event = self.below(set_up.events());
        let mut nodes = vec![Node::Both];
        for lengths in [[16, 19, 25], [17, 23, 27]] {
            let length = self.one_of(&lengths);
            self.add_loop(set_up, event, length, &mut nodes);
        }
        Rule::from_nodes(set_up.kind(), nodes).expect("no refusal holds of the rule")
    }

    /// A rule of one loop, of so many G nodes up to 150.
    fn rule_of_loop(&mut self, set_up: &SetUp, event: usize, length: usize) -> Rule {
        let event = event as u8;
        let mut nodes = vec![Node::Greatest];
        // One demand for each three nodes, so that there is room for all.
        for step in 0..length {
            if step % 3 == 0 {
                nodes.extend([Node::Both, Node::Output(event, self.value(set_up))]);
            }
            nodes.push(Node::After(event));
        }
        nodes.push(Node::Variable(0));
        Rule::from_nodes(set_up.kind(), nodes).expect("no refusal holds of the rule")
    }

    /// A rule of one loop on this event, of two to seven states, each with a demand: repeated, the event moves it for ever.
    pub fn rule_of_one_loop(&mut self, set_up: &SetUp, event: usize) -> Rule {
        let event = event as u8;
        let mut nodes = vec![Node::Greatest];
        for _ in 0..self.between(2, 7) {
            let value = self.value(set_up);
            nodes.extend([Node::Both, Node::Output(event, value), Node::After(event)]);
        }
        nodes.push(Node::Variable(0));
        Rule::from_nodes(set_up.kind(), nodes).expect("no refusal holds of the rule")
    }

    /// Two rules, often such that the first implies the second (document 02, F-14) or nearly does.
    pub fn pair_of_rules(&mut self, set_up: &SetUp) -> (Rule, Rule) {
        let event = self.below(set_up.events());
        let draw = |g: &mut Generator| match g.below(16) {
            0 => g.large_rule(set_up, event),
            1..=3 => g.rule_of_loops(set_up),
            _ => g.rule(set_up),
        };
        let (one, any) = (draw(self), draw(self));
        let other = match self.below(8) {
            // Both of the two, where that is a rule.
            0 => Rule::from_bytes(set_up, &joined(set_up.kind(), &one.to_bytes(), &any.to_bytes())).unwrap_or(any),
            1 => Rule::from_bytes(set_up, &joined(set_up.kind(), &any.to_bytes(), &one.to_bytes())).unwrap_or(any),
            2..=4 => self.with_other_leaf(set_up, &one),
            // The rule of its table, which has the same values, where that is a rule.
            5 => Table::of_rule(set_up, &one).and_then(|table| characteristic::rule_of(&table, 0)).unwrap_or(any),
            _ => any,
        };
        if self.once_in(3) {
            (one, other)
        } else {
            (other, one)
        }
    }

    /// The rule with one leaf changed: a value lowered or set anew, or T.
    fn with_other_leaf(&mut self, set_up: &SetUp, rule: &Rule) -> Rule {
        let mut nodes = rule.nodes().to_vec();
        let leaves: Vec<usize> = (0..nodes.len()).filter(|&number| nodes[number].parts() == 0).collect();
        let leaf = self.one_of(&leaves);
        let any = self.value(set_up);
        nodes[leaf] = match (nodes[leaf], self.below(4)) {
            (Node::Output(event, value), 0 | 1) => Node::Output(event, set_up.meet(value, any)),
            (Node::Output(event, _), 2) => Node::Output(event, any),
            _ => Node::True,
        };
        Rule::from_nodes(set_up.kind(), nodes).expect("T and O may stand everywhere")
    }

    /// A rule in bytes, damaged in one way. The refusal is for the caller to find, since damage may by chance be harmless.
    pub fn damaged_rule(&mut self, set_up: &SetUp) -> Vec<u8> {
        let (kind, each) = (set_up.kind(), set_up.kind().node_bytes());
        let mut bytes = formula::in_bytes(kind, &self.tree(set_up));
        let nodes = bytes.len() / each;
        let node = each * self.below(nodes);
        match self.below(19) {
            // 5
            0 => bytes.clear(),
            1 => bytes.resize(each * MAX_NODES + self.between(1, 2 * each), 0),
            2 => bytes.truncate(bytes.len() - self.between(1, each - 1)),
            3 => bytes.push(0),
            // 6
            4 => bytes[node] = self.one_of(&[6, 7, 128, 255]),
            5 => bytes[node + 1] = self.one_of(&[1, 16, 17, 255]),
            6 => {
                let of_value = self.below(kind.value_bytes());
                bytes[node + 2 + of_value] = self.one_of(&[1, 16, 17, 255]);
            }
            // 7
            7 => bytes.truncate(each * self.between(1, nodes)),
            8 => bytes.extend(Node::True.to_bytes(kind)),
            9 => bytes[node..node + each].copy_from_slice(&Node::Both.to_bytes(kind)),
            // 8 and 9
            10 => {
                let index = if self.once_in(2) { 0 } else { self.bits() as u8 };
                bytes[node..node + each].copy_from_slice(&Node::Variable(index).to_bytes(kind));
            }
            11..=14 => bytes = formula::in_bytes(kind, &self.misplaced_variables(set_up)),
            // 23
            15 | 16 => bytes = formula::in_bytes(kind, &self.about_most_binders(set_up)),
            // Any of them, often several.
            17 => {
                for _ in 0..self.between(1, 4) {
                    let at = self.below(bytes.len());
                    bytes[at] = self.below(8) as u8;
                }
            }
            _ => {
                let length = self.below(40);
                bytes = (0..length).map(|_| self.below(7) as u8).collect();
            }
        }
        bytes
    }

    /// A whole tree some of whose leaves have become variables, mostly of binders around them, often of the outermost one with no G
    /// between or of the innermost one with a G between: often 9, at times 8 or 23.
    pub fn misplaced_variables(&mut self, set_up: &SetUp) -> Vec<Node> {
        let mut nodes = self.tree(set_up);
        let places: Vec<Around> = with_binders(&nodes).map(|(_, around)| around).collect();
        for (node, around) in nodes.iter_mut().zip(places) {
            if node.parts() == 0 && around.binders > 0 && self.once_in(3) {
                *node = Node::Variable(self.any_variable(around) as u8);
            } else if node.parts() == 0 && self.once_in(20) {
                *node = Node::Variable((around.binders + self.below(2)) as u8);
            }
        }
        nodes
    }

    fn any_variable(&mut self, Around { binders, near }: Around) -> usize {
        match self.below(4) {
            0 => near.saturating_sub(1),
            1 => near.min(binders - 1),
            _ => self.below(binders),
        }
    }

    // Words and tables.

    /// A word of so many events.
    pub fn word(&mut self, set_up: &SetUp, length: usize) -> Vec<u8> {
        (0..length).map(|_| self.below(set_up.events()) as u8).collect()
    }

    /// A table that is no device, and a start; most are small.
    pub fn table(&mut self, set_up: &SetUp) -> RawTable {
        let states = self.count_of_states(MAX_STATES);
        self.table_of_states(set_up, states)
    }

    /// A device and its start; most are small.
    pub fn device(&mut self, set_up: &SetUp) -> RawTable {
        let states = self.count_of_states(MAX_DEVICE_STATES);
        self.table_of_states(set_up, states)
    }

    /// A number of states, often few, at times about the limit of a device or as many as there may be.
    fn count_of_states(&mut self, most: usize) -> usize {
        match self.below(16) {
            0 => self.between(1, most),
            1 => self.one_of(&[MAX_DEVICE_STATES - 1, MAX_DEVICE_STATES, MAX_DEVICE_STATES + 1, most - 1, most]).min(most),
            _ => self.between(1, 5),
        }
    }

    /// A table of so many states and a start.
    fn table_of_states(&mut self, set_up: &SetUp, states: usize) -> RawTable {
        let entries: Vec<Entry> = (0..states * set_up.events()).map(|_| self.entry(set_up, states)).collect();
        RawTable { states, start: self.below(states), bytes: table::in_bytes(set_up.kind(), entries) }
    }

    /// An entry of a table of so many states.
    fn entry(&mut self, set_up: &SetUp, states: usize) -> Entry {
        Entry { value: self.value(set_up), next: self.below(states) as u8 }
    }

    /// A table that may be written as a rule: on some event each state goes to the next one, on the others mostly to one before it, so
    /// few paths are long. At times the longest one has about as many states as its rule may have binders on a path. At times other
    /// states stand before the start, so that a state has a large number.
    pub fn chain(&mut self, set_up: &SetUp) -> RawTable {
        let RawTable { states, bytes, .. } = self.chain_from_0(set_up);
        if !self.once_in(8) {
            return RawTable { states, start: 0, bytes };
        }
        let before = if self.once_in(2) { MAX_STATES - states } else { self.between(1, MAX_STATES - states) };
        let all = before + states;
        let kind = set_up.kind();
        let entries: Vec<Entry> = (0..before * set_up.events()).map(|_| self.entry(set_up, all)).collect();
        let mut moved = table::in_bytes(kind, entries);
        for entry in bytes.chunks_exact(kind.entry_bytes()) {
            moved.extend_from_slice(entry);
            *moved.last_mut().expect("an entry has bytes") += before as u8;
        }
        RawTable { states: all, start: before, bytes: moved }
    }

    fn chain_from_0(&mut self, set_up: &SetUp) -> RawTable {
        let states =
            if self.once_in(3) { self.between(MAX_BINDERS - 1, MAX_BINDERS + 2) } else { self.between(1, MAX_BINDERS) };
        let mut entries = Vec::with_capacity(states * set_up.events());
        for state in 0..states {
            let onwards = self.below(set_up.events());
            for event in 0..set_up.events() {
                let next = if event == onwards {
                    (state + 1).min(states - 1)
                } else if self.once_in(30) {
                    self.below(states)
                } else {
                    self.below(state + 1)
                };
                entries.push(Entry { value: self.value(set_up), next: next as u8 });
            }
        }
        RawTable { states, start: 0, bytes: table::in_bytes(set_up.kind(), entries) }
    }

    /// A device made from a table: states doubled, and the values of none, one or half of its entries lowered, so that it passes
    /// against that table as same or as stricter; and often one value set anew, so that it may fail. A table of more states than a device
    /// may have is folded.
    pub fn device_near(&mut self, set_up: &SetUp, table: &Table) -> RawTable {
        let copies = if table.states() * 2 <= MAX_DEVICE_STATES { self.between(1, 2) } else { 1 };
        let states = (copies * table.states()).min(MAX_DEVICE_STATES);
        let mut entries = Vec::with_capacity(states * set_up.events());
        for state in 0..states {
            for event in 0..set_up.events() {
                let Entry { value, next } = self.folded_entry(set_up, table, state / copies, event);
                entries.push(Entry { value, next: next * copies as u8 + self.below(copies) as u8 });
            }
        }
        let count = entries.len();
        let lowered: Vec<usize> = match self.below(3) {
            0 => Vec::new(),
            1 => vec![self.below(count)],
            _ => (0..count).filter(|_| self.once_in(2)).collect(),
        };
        for entry in lowered {
            entries[entry].value = set_up.meet(entries[entry].value, self.value(set_up));
        }
        if self.once_in(2) {
            entries[self.below(count)].value = self.value(set_up);
        }
        RawTable { states, start: self.below(copies), bytes: table::in_bytes(set_up.kind(), entries) }
    }

    /// The entry of a state of a device that stands for each 64th state of a table from that one on: the meet of their values, mostly, and
    /// a next state of one of them.
    fn folded_entry(&mut self, set_up: &SetUp, table: &Table, state: usize, event: usize) -> Entry {
        let all: Vec<Entry> =
            (state..table.states()).step_by(MAX_DEVICE_STATES).map(|state| table.entry(state, event)).collect();
        let of = self.one_of(&all);
        let meet = all.iter().fold(of.value, |meet, entry| set_up.meet(meet, entry.value));
        let value = if self.once_in(64) { of.value } else { meet };
        Entry { value, next: of.next % MAX_DEVICE_STATES as u8 }
    }

    /// A table damaged in one way that 11 refuses for any table.
    pub fn damaged_table(&mut self, set_up: &SetUp) -> RawTable {
        self.damaged_of(set_up, MAX_STATES)
    }

    /// A device damaged in one way that 11 refuses for a device, at times no more than by its number of states.
    pub fn damaged_device(&mut self, set_up: &SetUp) -> RawTable {
        self.damaged_of(set_up, MAX_DEVICE_STATES)
    }

    fn damaged_of(&mut self, set_up: &SetUp, most: usize) -> RawTable {
        // A table of 256 states has no next state that is too large.
        let states = self.count_of_states(most).min(MAX_STATES - 1);
        let mut table = self.table_of_states(set_up, states);
        let (kind, each) = (set_up.kind(), set_up.kind().entry_bytes());
        match self.below(8) {
            0 => {
                table.states = 0;
                table.start = 0;
                table.bytes.clear();
            }
            1 => {
                let too_many = [65, 66, 255, 256, 257, 258, 320, 512].into_iter().filter(|&states| states > most);
                let states = self.one_of(&too_many.collect::<Vec<usize>>());
                table = self.table_of_states(set_up, states);
            }
            2 => table.states += 1,
            3 => table.bytes.truncate(table.bytes.len() - self.between(1, each)),
            4 => {
                let more = self.between(1, each);
                table.bytes.extend(std::iter::repeat_n(0, more));
            }
            5 => table.start = table.states + self.one_of(&[0, 1, 255, usize::MAX / 2]),
            which => {
                let at = each * self.below(table.bytes.len() / each);
                match self.no_value(set_up).filter(|_| which == 6) {
                    Some(value) => table.bytes[at..at + each - 1].copy_from_slice(&kind.value_to_bytes(value)),
                    None => table.bytes[at + each - 1] = self.one_of(&[states as u8, 64, 255]).max(states as u8),
                }
            }
        }
        table
    }

    // Wheels and pulses (document 02, F-6).

    /// A wheel.
    pub fn wheel(&mut self) -> Wheel {
        Wheel { pulses: self.per_turn(), millimetres: self.per_turn() }
    }

    fn per_turn(&mut self) -> usize {
        match self.below(10) {
            0 | 1 => 1,
            2 | 3 => MAX_PER_TURN,
            4 => self.between(2, 12),
            5 => self.one_of(&[255, 256, 32_768, MAX_PER_TURN - 1]),
            _ => self.between(1, MAX_PER_TURN),
        }
    }

    /// A wheel that 18 refuses: P, C or both are out of range. Some of the numbers wrap to good ones.
    pub fn damaged_wheel(&mut self) -> Wheel {
        const BAD: [usize; 10] = [0, 0, 65_536, 65_536, 65_537, 131_071, 1 << 32, (1 << 32) + 1, usize::MAX - 1, usize::MAX];
        let mut wheel = self.wheel();
        let which = self.below(5);
        if which < 3 {
            wheel.pulses = self.one_of(&BAD);
        }
        if which > 1 {
            wheel.millimetres = self.one_of(&BAD);
        }
        wheel
    }

    /// The pulses of an event, often few or as many as there may be.
    pub fn pulses(&mut self) -> u32 {
        match self.below(8) {
            0 => 0,
            1 => 1,
            2 => self.below(1000) as u32,
            3 => self.one_of(&[65_535, 65_536, 1 << 31, u32::MAX - 1]),
            4 => u32::MAX,
            _ => self.bits() as u32,
        }
    }

    /// The pulses of about 256 events one after another, whose total comes near its limit, and the room that they leave.
    pub fn pulses_to_limit(&mut self) -> (Vec<u32>, u32) {
        let mut list = Vec::new();
        let mut room = MAX_TOTAL;
        while room >= u64::from(u32::MAX) {
            let pulses = if self.once_in(32) { self.pulses() } else { u32::MAX };
            room -= u64::from(pulses);
            list.push(pulses);
        }
        (list, room as u32)
    }

    /// The pulses of an event where there is so much room, often one more than that, which 19 refuses.
    pub fn pulses_about(&mut self, room: u32) -> u32 {
        match self.below(10) {
            0 | 1 => room,
            2 | 3 => room.saturating_add(1),
            4 => room.saturating_sub(1),
            5 => room / 2,
            _ => self.pulses(),
        }
    }

    // Calls on a tool.

    /// A list of calls, damaged inputs among them. Few channels are used much, so that their histories grow long.
    pub fn calls(&mut self, set_up: &SetUp, length: usize) -> Vec<Call> {
        (0..length).map(|_| self.call(set_up)).collect()
    }

    /// A load and events that bring a channel's total to its limit, with refused ones among them, then so many calls of any kind.
    pub fn calls_about_limit(&mut self, set_up: &SetUp, length: usize) -> Vec<Call> {
        let (channel, event) = (self.below(2), self.below(set_up.events()));
        let mut calls = vec![Call::Load { channel, rule: self.rule_of_one_loop(set_up, event).to_bytes() }];
        let (mut list, mut room) = self.pulses_to_limit();
        for _ in 0..self.between(4, 16) {
            let pulses = self.pulses_about(room);
            room = room.checked_sub(pulses).unwrap_or(room);
            list.push(pulses);
        }
        for pulses in list {
            if self.once_in(16) {
                calls.push(Call::Event { channel, event: set_up.events(), pulses });
            }
            calls.push(Call::Event { channel, event, pulses });
        }
        calls.extend(self.calls(set_up, length));
        calls
    }

    /// So many calls on all channels whose loads have about as many rows as there is room for, at times one more, which 25 refuses, with
    /// clears and short rules among them. One event is met again and again, so that long rules go far.
    pub fn calls_about_rows(&mut self, set_up: &SetUp, length: usize) -> Vec<Call> {
        let event = self.below(set_up.events());
        let mut rows = [0; CHANNELS];
        let mut calls = Vec::new();
        while calls.len() < length {
            let channel = self.below(CHANNELS);
            match self.below(12) {
                0..=3 => {
                    let room = MAX_ROWS - (rows.iter().sum::<usize>() - rows[channel]);
                    let states = self.rows_about(room);
                    if states <= room {
                        rows[channel] = states;
                    }
                    let rule = self.rule_of_states(set_up, event, states).to_bytes();
                    calls.push(Call::Load { channel, rule });
                }
                4 => {
                    rows[channel] = 0;
                    calls.push(Call::Clear { channel });
                }
                5 => {
                    let rule = self.damaged_rule(set_up);
                    // What is accepted by chance would take rows that are not counted here.
                    if Rule::from_bytes(set_up, &rule).is_err() {
                        calls.push(Call::Load { channel, rule });
                    }
                }
                6 => calls.push(Call::RestartOne { channel }),
                7 if self.once_in(4) => calls.push(Call::RestartAll),
                _ => {
                    let times = if self.once_in(8) { self.between(1, MAX_STATES) } else { self.between(1, 8) };
                    for _ in 0..times {
                        let event = if self.once_in(64) { self.below(set_up.events() + 1) } else { event };
                        calls.push(Call::Event { channel, event, pulses: self.below(3) as u32 });
                    }
                }
            }
        }
        calls
    }

    /// How many states a rule may have where there is room for so many rows: often all of them, or one more.
    pub fn rows_about(&mut self, room: usize) -> usize {
        match self.below(8) {
            0 | 1 => room,
            2 | 3 => room + 1,
            4 => 3,
            5 => self.one_of(&[MAX_DEVICE_STATES, MAX_DEVICE_STATES + 1, MAX_STATES - 1, MAX_STATES]),
            _ => self.between(1, MAX_STATES),
        }
        .clamp(1, MAX_STATES)
    }

    fn call(&mut self, set_up: &SetUp) -> Call {
        let channel = match self.below(20) {
            0 => self.one_of(&[8, 9, 16, 255, 256, 257, usize::MAX]),
            1..=4 => self.below(8),
            _ => self.below(2),
        };
        match self.below(30) {
            0..=3 => Call::Load { channel, rule: self.rule(set_up).to_bytes() },
            4 if self.once_in(2) => {
                let event = self.below(set_up.events());
                Call::Load { channel, rule: self.large_rule(set_up, event).to_bytes() }
            }
            4 => Call::Load { channel, rule: self.rule_of_loops(set_up).to_bytes() },
            5 => Call::Load { channel, rule: self.damaged_rule(set_up) },
            6 => Call::RestartOne { channel },
            7 => Call::RestartAll,
            8 => Call::Clear { channel },
            9 => {
                let event = self.one_of(&[set_up.events(), 16, 17, 255, 256, usize::MAX]);
                Call::Event { channel, event, pulses: self.pulses() }
            }
            _ => Call::Event { channel, event: self.below(set_up.events()), pulses: self.pulses() },
        }
    }

    // Files.

    /// A channel file.
    pub fn file(&mut self) -> Vec<u8> {
        self.file_of(Kind::Numbers)
    }

    /// A channel file for values of this kind.
    pub fn file_of(&mut self, kind: Kind) -> Vec<u8> {
        let set_up = self.set_up_of(kind);
        let rule = if self.once_in(6) { self.rule_of_loops(&set_up) } else { self.rule(&set_up) };
        channel_file::to_text(&set_up, &rule).into_bytes()
    }

    /// A text in the form whose numbers and items are any, so that 1 to 3, 5 to 10 and 23 arise.
    pub fn loose_file(&mut self) -> Vec<u8> {
        self.loose_file_of(Kind::Numbers)
    }

    /// The same for values of this kind, so that for a register 20 arises in the place of 2 and 3.
    pub fn loose_file_of(&mut self, kind: Kind) -> Vec<u8> {
        let file = self.file_of(kind);
        let text = String::from_utf8(file).expect("a file is plain text");
        let mut lines: Vec<String> = text.lines().map(str::to_string).collect();
        let last = lines.len() - 1;
        if self.once_in(4) {
            // The rule line alone, so that 8, 9 and 23 are not hidden by what comes before them.
            let set_up = channel_file::read_of(kind, text.as_bytes()).expect("a file is accepted").set_up;
            let nodes = if self.once_in(4) { self.about_most_binders(&set_up) } else { self.misplaced_variables(&set_up) };
            lines[last] = format!("rule={}", tokens_of(kind, &nodes));
            return (lines.join("\n") + "\n").into_bytes();
        }
        for _ in 0..self.between(1, 2) {
            match (self.below(8), kind) {
                (0, _) => lines[0] = format!("events={}", self.loose_number()),
                (1 | 2, Kind::Register) => lines[1] = format!("lines={}", self.loose_number()),
                (1, _) => lines[1] = format!("values={}", self.loose_number()),
                (2, _) => lines[2] = format!("top={}", self.loose_number()),
                (3, Kind::Numbers) => {
                    let mut items: Vec<String> = lines[3]["meet=".len()..].split(' ').map(str::to_string).collect();
                    let at = self.below(items.len());
                    match self.below(3) {
                        0 => items[at] = self.loose_number().to_string(),
                        1 if items.len() > 1 => drop(items.remove(at)),
                        _ => items.insert(at, "0".to_string()),
                    }
                    lines[3] = format!("meet={}", items.join(" "));
                }
                _ => lines[last] = format!("rule={}", self.loose_items(kind, &lines[last]["rule=".len()..])),
            }
        }
        (lines.join("\n") + "\n").into_bytes()
    }

    /// A text in the form of exactly so many bytes, at least 100; its rule has too many nodes left over or more than 256.
    pub fn long_file(&mut self, length: usize) -> Vec<u8> {
        self.long_file_of(Kind::Numbers, length)
    }

    /// The same for values of this kind.
    pub fn long_file_of(&mut self, kind: Kind, length: usize) -> Vec<u8> {
        let raw = match kind {
            Kind::Numbers => RawSetUp::four_values(2),
            Kind::Register => RawSetUp::register(2, 4),
        };
        let set_up = SetUp::new(raw).expect("1 to 3 and 20 do not refuse it");
        let rule = self.rule_of_size(&set_up, 2);
        let mut text = channel_file::to_text(&set_up, &rule).into_bytes();
        text.pop();
        if (length - text.len()).is_multiple_of(2) {
            text.extend_from_slice(b" G0");
        }
        while text.len() + 1 < length {
            text.extend_from_slice(self.one_of(&[b" T", b" A", b" V"]));
        }
        text.push(b'\n');
        text
    }

    fn long_file_near_limit(&mut self, kind: Kind) -> Vec<u8> {
        let length = channel_file::MAX_BYTES + self.below(4) - 1;
        self.long_file_of(kind, length)
    }

    fn loose_number(&mut self) -> usize {
        match self.below(3) {
            0 => self.one_of(&LARGE),
            1 => self.below(1000),
            _ => self.below(17),
        }
    }

    /// These items with one or two of them removed, inserted or set anew, and at times too many behind them.
    fn loose_items(&mut self, kind: Kind, items: &str) -> String {
        let mut items: Vec<String> = items.split(' ').map(str::to_string).collect();
        for _ in 0..self.between(1, 2) {
            let at = self.below(items.len());
            match self.below(4) {
                0 if items.len() > 1 => drop(items.remove(at)),
                1 => items.insert(at, self.loose_item(kind)),
                _ => items[at] = self.loose_item(kind),
            }
        }
        if self.once_in(12) {
            let item = self.loose_item(kind);
            let more = self.between(250, 300);
            items.extend(std::iter::repeat_n(item, more));
        }
        items.join(" ")
    }

    fn loose_item(&mut self, kind: Kind) -> String {
        match self.below(6) {
            0 => "T".to_string(),
            1 => "A".to_string(),
            2 => "V".to_string(),
            3 => format!("X{}", if self.once_in(2) { self.below(3) } else { self.loose_number() }),
            4 => format!("G{}", if self.once_in(2) { 0 } else { self.loose_number() }),
            _ => match kind {
                Kind::Numbers => format!("O{}.{}", self.loose_number(), self.loose_number()),
                Kind::Register => {
                    let event = if self.once_in(2) { 0 } else { self.loose_number() };
                    format!("O{event}.{}.{}", self.loose_mask(), self.loose_mask())
                }
            },
        }
    }

    /// A number that a mask of a file may be: often a power of two or one less, often of no 16 bits.
    fn loose_mask(&mut self) -> usize {
        match self.below(4) {
            0 => self.one_of(&LARGE_MASKS),
            1 => (1 << self.below(MAX_LINES + 1)) - self.below(2),
            2 => self.below(4),
            _ => self.below(100_000),
        }
    }

    /// A text damaged in its bytes, so that mostly 4 arises.
    pub fn damaged_file(&mut self) -> Vec<u8> {
        self.damaged_file_of(Kind::Numbers)
    }

    /// The same for values of this kind.
    pub fn damaged_file_of(&mut self, kind: Kind) -> Vec<u8> {
        let mut text = if self.once_in(3) { self.loose_file_of(kind) } else { self.file_of(kind) };
        self.damage(&mut text);
        if self.once_in(30) {
            // Near the limit, in the form or with one byte set anew.
            text = self.long_file_near_limit(kind);
            if self.once_in(2) {
                let at = self.below(text.len());
                text[at] = self.one_of(BYTES);
            }
        }
        text
    }

    /// Damages a text, which is not empty, in one to three places.
    pub fn damage(&mut self, text: &mut Vec<u8>) {
        for _ in 0..self.one_of(&[1, 1, 1, 2, 3]) {
            let at = self.below(text.len());
            match self.below(9) {
                0 => text[at] = self.one_of(BYTES),
                1 => text[at] = self.bits() as u8,
                2 => drop(text.remove(at)),
                3 => text.insert(at, self.one_of(BYTES)),
                4 => text.insert(at, text[at]),
                5 => text.truncate(at + 1),
                6 => text.extend_from_slice(self.one_of(&[&b"\n"[..], b"\0", b" ", b"rule=T\n", b"T"])),
                7 => {
                    // At the ends of the parts: before a space or a byte 10.
                    if let Some(end) = text[at..].iter().position(|byte| matches!(byte, b' ' | b'\n')) {
                        let more = self.one_of(&[&b" "[..], b"0", b"00", b"1", b"999", b".", b".0", b"\r", b"\n"]);
                        text.splice(at + end..at + end, more.iter().copied());
                    }
                }
                _ => {
                    let end = text.len().min(at + self.between(1, 12));
                    text.drain(at..end);
                }
            }
            if text.is_empty() {
                break;
            }
        }
    }

    // Tokens: what stands behind `rule=`.

    /// The tokens of a rule.
    pub fn good_tokens(&mut self, set_up: &SetUp) -> String {
        let rule = if self.once_in(4) { self.rule_of_loops(set_up) } else { self.rule(set_up) };
        tokens_of(set_up.kind(), rule.nodes())
    }

    /// The tokens of a rule of one loop.
    pub fn tokens_of_one_loop(&mut self, set_up: &SetUp, event: usize) -> String {
        tokens_of(set_up.kind(), self.rule_of_one_loop(set_up, event).nodes())
    }

    /// The tokens of a rule of so many states.
    pub fn tokens_of_states(&mut self, set_up: &SetUp, event: usize, states: usize) -> String {
        tokens_of(set_up.kind(), self.rule_of_states(set_up, event, states).nodes())
    }

    /// The tokens of two rules, often such that the first implies the second or nearly does.
    pub fn pair_of_tokens(&mut self, set_up: &SetUp) -> (String, String) {
        let (first, second) = self.pair_of_rules(set_up);
        (tokens_of(set_up.kind(), first.nodes()), tokens_of(set_up.kind(), second.nodes()))
    }

    /// Tokens of any kind: good, in the form with 5 to 10 and 23 among them, or damaged in their bytes.
    pub fn tokens(&mut self, set_up: &SetUp) -> Vec<u8> {
        let kind = set_up.kind();
        let mut tokens = match self.below(17) {
            0..=3 => tokens_of(kind, &self.misplaced_variables(set_up)),
            4..=8 => {
                let good = self.good_tokens(set_up);
                self.loose_items(kind, &good)
            }
            // About 64 states; about 256 states or nodes.
            9 if self.once_in(2) => format!("{}T", "G0 ".repeat(self.between(61, 66))),
            9 => {
                let event = self.below(set_up.events());
                tokens_of(kind, self.large_rule(set_up, event).nodes())
            }
            10 if self.once_in(2) => format!("{}T", "G0 ".repeat(self.between(254, 262))),
            10 => format!("{}T", "T ".repeat(self.between(254, 258))),
            11 | 12 => tokens_of(kind, &self.about_most_binders(set_up)),
            13 if !self.once_in(3) => tokens_of(kind, self.rule_of_too_many_states(set_up).nodes()),
            _ => self.good_tokens(set_up),
        }
        .into_bytes();
        if self.once_in(12) {
            self.damage(&mut tokens);
        }
        tokens
    }
}

/// Bytes that a text has, and some that it has not.
const BYTES: &[u8] = b"\n\r\t \0.=0123456789TXGOAVtxgoaveventsvaluestopmeetrule\x7f\x80\xff";

fn tokens_of(kind: Kind, nodes: &[Node]) -> String {
    let mut tokens = String::new();
    channel_file::push_items(&mut tokens, kind, nodes);
    tokens
}
