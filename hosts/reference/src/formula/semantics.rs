//! The formula semantics: value and follower of each formula on an event, by the equations of source 000, section 3.
//!
//! Followers of a formula share most of what they are made of, so equal formulas are kept once and each step is computed once.

use std::collections::{BTreeSet, HashMap, HashSet};

use super::{Node, Rule, MAX_NODES};
use crate::values::{SetUp, Value};
use crate::Refusal;

/// A formula kept in [`Formulas`].
#[derive(Clone, Copy, Debug, PartialEq, Eq, Hash, PartialOrd, Ord)]
pub struct Id(u32);

/// A formula of source 000, definition 3, its parts kept beside it. A variable is the number of binders between it and its own.
#[derive(Clone, Copy, PartialEq, Eq, Hash)]
enum Formula {
    True,
    Variable(u8),
    After(u8, Id),
    Output(u8, Value),
    Both(Id, Id),
    Greatest(Id),
}

/// A formula, and how many binders around it its free variables need.
#[derive(Clone, Copy)]
struct Kept {
    formula: Formula,
    free: u16,
}

/// Value and follower on one event.
#[derive(Clone, Copy)]
struct Step {
    value: Value,
    follower: Id,
}

/// All formulas met so far under one set-up.
pub struct Formulas {
    set_up: SetUp,
    kept: Vec<Kept>,
    ids: HashMap<Formula, Id>,
    /// The part of each V with the whole V put for its variable.
    unfolded: HashMap<Id, Id>,
    steps: HashMap<(Id, u8), Step>,
}

impl Formulas {
    /// None yet.
    pub fn new(set_up: SetUp) -> Formulas {
        Formulas { set_up, kept: Vec::new(), ids: HashMap::new(), unfolded: HashMap::new(), steps: HashMap::new() }
    }

    /// The formula of a rule.
    pub fn of_rule(&mut self, rule: &Rule) -> Id {
        // From the last node back, so the parts of a node are the topmost formulas, the first on top.
        let mut parts: Vec<Id> = Vec::new();
        for &node in rule.nodes().iter().rev() {
            let formula = match node {
                Node::True => Formula::True,
                Node::Variable(index) => Formula::Variable(index),
                Node::After(event) => Formula::After(event, pop(&mut parts)),
                Node::Output(event, value) => Formula::Output(event, value),
                Node::Both => {
                    let first = pop(&mut parts);
                    Formula::Both(first, pop(&mut parts))
                }
                Node::Greatest => Formula::Greatest(pop(&mut parts)),
            };
            parts.push(self.keep(formula));
        }
        pop(&mut parts)
    }

    /// A formula as a rule, or nothing where that takes over 256 nodes or, as followers may, more than twelve binders on a path.
    pub fn to_rule(&self, id: Id) -> Option<Rule> {
        let mut nodes = Vec::new();
        let mut waiting = vec![id];
        while let Some(id) = waiting.pop() {
            if nodes.len() == MAX_NODES {
                return None;
            }
            nodes.push(match self.formula(id) {
                Formula::True => Node::True,
                Formula::Variable(index) => Node::Variable(index),
                Formula::After(event, part) => {
                    waiting.push(part);
                    Node::After(event)
                }
                Formula::Output(event, value) => Node::Output(event, value),
                Formula::Both(first, second) => {
                    waiting.push(second);
                    waiting.push(first);
                    Node::Both
                }
                Formula::Greatest(part) => {
                    waiting.push(part);
                    Node::Greatest
                }
            });
        }
        match Rule::from_nodes(self.set_up.kind(), nodes) {
            Err(Refusal { number: 23, .. }) => None,
            rule => Some(rule.expect("rules and their followers are closed and guarded")),
        }
    }

    /// The value of a closed guarded formula on an event.
    pub fn value(&mut self, id: Id, event: u8) -> Value {
        self.step(id, event).value
    }

    /// The follower of a closed guarded formula on an event.
    pub fn follower(&mut self, id: Id, event: u8) -> Id {
        self.step(id, event).follower
    }

    /// The values on an event sequence, the follower being taken on each event in turn, and tidied.
    pub fn values(&mut self, id: Id, word: &[u8]) -> Vec<Value> {
        let mut now = id;
        word.iter()
            .map(|&event| {
                let Step { value, follower } = self.step(now, event);
                now = self.tidy(follower);
                value
            })
            .collect()
    }

    /// A formula with the same values: what A joins, each once, in one order and without T. Meet is idempotent, commutative
    /// and associative and top is neutral, so no value changes. Untidied, a follower grows with the length of its word.
    pub fn tidy(&mut self, id: Id) -> Id {
        let mut joined = BTreeSet::new();
        let mut seen = HashSet::new();
        let mut waiting = vec![id];
        while let Some(id) = waiting.pop() {
            match self.formula(id) {
                Formula::True => {}
                Formula::Both(first, second) => {
                    if seen.insert(id) {
                        waiting.extend([first, second]);
                    }
                }
                _ => {
                    joined.insert(id);
                }
            }
        }
        let mut joined = joined.into_iter();
        match joined.next() {
            None => self.keep(Formula::True),
            Some(first) => joined.fold(first, |before, next| self.keep(Formula::Both(before, next))),
        }
    }

    /// How many formulas are kept.
    pub fn count(&self) -> usize {
        self.kept.len()
    }

    /// Value and follower together; what they need is computed first, without recursion, since followers may nest deeply.
    fn step(&mut self, id: Id, event: u8) -> Step {
        let top = self.set_up.top();
        let mut waiting = vec![id];
        while let Some(&id) = waiting.last() {
            if self.steps.contains_key(&(id, event)) {
                waiting.pop();
                continue;
            }
            let step = match self.formula(id) {
                // "T gives top, then T."
                Formula::True => Step { value: top, follower: id },
                // "G gives top; then its part on its event, T on any other."
                Formula::After(own, part) => {
                    Step { value: top, follower: if own == event { part } else { self.keep(Formula::True) } }
                }
                // "O gives its value on its event, top on any other; then T."
                Formula::Output(own, value) => {
                    Step { value: if own == event { value } else { top }, follower: self.keep(Formula::True) }
                }
                // "A gives the meet of both values, then A of both followers."
                Formula::Both(first, second) => {
                    let Some(&one) = self.steps.get(&(first, event)) else {
                        waiting.push(first);
                        continue;
                    };
                    let Some(&two) = self.steps.get(&(second, event)) else {
                        waiting.push(second);
                        continue;
                    };
                    Step {
                        value: self.set_up.meet(one.value, two.value),
                        follower: self.keep(Formula::Both(one.follower, two.follower)),
                    }
                }
                // "V is as its part with the whole V put for its variable."
                Formula::Greatest(part) => {
                    let unfolded = self.unfold(id, part);
                    let Some(&step) = self.steps.get(&(unfolded, event)) else {
                        waiting.push(unfolded);
                        continue;
                    };
                    step
                }
                Formula::Variable(_) => unreachable!("the formula is closed and guarded"),
            };
            self.steps.insert((id, event), step);
            waiting.pop();
        }
        self.steps[&(id, event)]
    }

    /// The part of a closed V with the whole V put for its variable.
    fn unfold(&mut self, whole: Id, part: Id) -> Id {
        if let Some(&unfolded) = self.unfolded.get(&whole) {
            return unfolded;
        }
        let unfolded = self.substitute(part, 0, whole);
        self.unfolded.insert(whole, unfolded);
        unfolded
    }

    /// Puts a closed formula for the variable whose binder lies `depth` binders out. A formula without that variable stays as
    /// it is, so only what stood in the rule itself is walked.
    fn substitute(&mut self, id: Id, depth: u8, whole: Id) -> Id {
        let Kept { formula, free } = self.kept[id.0 as usize];
        if free <= u16::from(depth) {
            return id;
        }
        let formula = match formula {
            Formula::Variable(index) if index == depth => return whole,
            Formula::True | Formula::Variable(_) | Formula::Output(..) => return id,
            Formula::After(event, part) => Formula::After(event, self.substitute(part, depth, whole)),
            Formula::Both(first, second) => {
                let first = self.substitute(first, depth, whole);
                Formula::Both(first, self.substitute(second, depth, whole))
            }
            Formula::Greatest(part) => Formula::Greatest(self.substitute(part, depth + 1, whole)),
        };
        self.keep(formula)
    }

    fn formula(&self, id: Id) -> Formula {
        self.kept[id.0 as usize].formula
    }

    fn keep(&mut self, formula: Formula) -> Id {
        if let Some(&id) = self.ids.get(&formula) {
            return id;
        }
        let free = |id: Id| self.kept[id.0 as usize].free;
        let free = match formula {
            Formula::True | Formula::Output(..) => 0,
            Formula::Variable(index) => u16::from(index) + 1,
            Formula::After(_, part) => free(part),
            Formula::Both(first, second) => free(first).max(free(second)),
            Formula::Greatest(part) => free(part).saturating_sub(1),
        };
        let id = Id(u32::try_from(self.kept.len()).expect("fewer formulas than 2^32"));
        self.kept.push(Kept { formula, free });
        self.ids.insert(formula, id);
        id
    }
}

fn pop(parts: &mut Vec<Id>) -> Id {
    parts.pop().expect("the rule is whole")
}
