//! "The log is what demand 3 compares with." It makes no table and judges events by the formula semantics.

use std::collections::{BTreeSet, HashSet};

use super::{check_channel, Answer, Call, Distance, Reading, Wheel, CHANNELS, MAX_ROWS, MAX_TOTAL};
use crate::formula::{Formulas, Id, Node, Rule};
use crate::table::MAX_STATES;
use crate::values::{RawSetUp, SetUp};
use crate::Refusal;

/// What the log has for a channel: "a rule and its events in order", and the pulses that each of them carried (document 02, F-6).
pub struct Record {
    rule: Rule,
    events: Vec<u8>,
    pulses: Vec<u32>,
    /// How many sets of demands the rule reaches: the rows that its table takes (document 02, F-12).
    rows: usize,
    formulas: Formulas,
    /// The formula of the rule.
    root: Id,
    /// Its follower after the events, tidied.
    now: Id,
}

impl Record {
    fn new(set_up: &SetUp, rule: Rule, rows: usize) -> Record {
        let mut formulas = Formulas::new(set_up.clone());
        let root = formulas.of_rule(&rule);
        Record { rule, events: Vec::new(), pulses: Vec::new(), rows, formulas, root, now: root }
    }

    /// The rule.
    pub fn rule(&self) -> &Rule {
        &self.rule
    }

    /// The events in order.
    pub fn events(&self) -> &[u8] {
        &self.events
    }

    /// "A channel holds their total since its loading or restart; document 01's log keeps it too" (document 02, F-6).
    pub fn total(&self) -> u64 {
        self.pulses.iter().map(|&pulses| u64::from(pulses)).sum()
    }

    /// The rows that the rule's table takes (document 02, F-12).
    pub fn rows(&self) -> usize {
        self.rows
    }

    fn forget_events(&mut self) {
        self.events.clear();
        self.pulses.clear();
        self.now = self.root;
    }
}

/// "For each channel it has nothing, or a rule and its events in order; at set-up all have nothing."
pub struct Log {
    set_up: SetUp,
    wheel: Wheel,
    channels: [Option<Record>; CHANNELS],
}

impl Log {
    /// "It is fed the set-up and the calls with their inputs": refusals 1 to 3, 18; for a register 1, 20, 18.
    pub fn new(set_up: RawSetUp, wheel: Wheel) -> Result<Log, Refusal> {
        let set_up = SetUp::new(set_up)?;
        wheel.check()?;
        Ok(Log { set_up, wheel, channels: Default::default() })
    }

    /// What the log has for a channel.
    pub fn record(&self, channel: usize) -> Option<&Record> {
        self.channels[channel].as_ref()
    }

    /// A call. "A refused call changes nothing in the log."
    pub fn call(&mut self, call: &Call) -> Answer {
        match *call {
            // "load: the channel gets that rule and no events, whatever it had."
            Call::Load { channel, ref rule } => {
                check_channel(channel)?;
                let rule = Rule::from_bytes(&self.set_up, rule)?;
                let rows = reached(&rule, self.set_up.events()).ok_or(Refusal::new(10))?;
                if rows > self.room_beside(channel) {
                    return Err(Refusal::new(25));
                }
                self.channels[channel] = Some(Record::new(&self.set_up, rule, rows));
                Ok(None)
            }
            // "event: returns the rule's value on it after the channel's events, the follower being taken on each in turn;
            // then it is added at their end."
            Call::Event { channel, event, pulses } => {
                let (events, wheel) = (self.set_up.events(), self.wheel);
                let record = self.loaded(channel)?;
                if event >= events {
                    return Err(Refusal::new(16));
                }
                if u64::from(pulses) > MAX_TOTAL - record.total() {
                    return Err(Refusal::new(19));
                }
                let event = event as u8;
                let value = record.formulas.value(record.now, event);
                let follower = record.formulas.follower(record.now, event);
                record.now = record.formulas.tidy(follower);
                record.events.push(event);
                record.pulses.push(pulses);
                Ok(Some(Reading { value, distance: distance(wheel, record.total()) }))
            }
            // "restart one: the channel's events go."
            Call::RestartOne { channel } => {
                self.loaded(channel)?.forget_events();
                Ok(None)
            }
            // "Restart all: all channels' events go, rules stay."
            Call::RestartAll => {
                self.channels.iter_mut().flatten().for_each(Record::forget_events);
                Ok(None)
            }
            // "clear: the channel has nothing."
            Call::Clear { channel } => {
                check_channel(channel)?;
                self.channels[channel] = None;
                Ok(None)
            }
        }
    }

    /// The rows that the other channels' rules leave: "Whether a load is accepted may depend on the row totals of others, and on nothing
    /// else of theirs" (document 02, F-12).
    fn room_beside(&self, channel: usize) -> usize {
        let others = self.channels.iter().enumerate().filter(|&(other, _)| other != channel);
        MAX_ROWS - others.filter_map(|(_, record)| record.as_ref()).map(|record| record.rows).sum::<usize>()
    }

    /// 14, then 15; "there a channel with nothing is empty".
    fn loaded(&mut self, channel: usize) -> Result<&mut Record, Refusal> {
        check_channel(channel)?;
        self.channels[channel].as_mut().ok_or(Refusal::new(15))
    }
}

/// How far a total of pulses is: C millimetres for each whole turn of the wheel, and of the turn that is not whole, C P-ths of a
/// millimetre for each pulse.
fn distance(wheel: Wheel, total: u64) -> Distance {
    let (p, c) = (wheel.pulses as u64, wheel.millimetres as u64);
    let (turns, pulses) = (total / p, total % p);
    Distance { millimetres: turns * c + pulses * c / p, rest: pulses * c % p }
}

/// How many sets of G and O node numbers are reached, by document 01's sentences on demands and nothing else of the table; nothing where
/// 10 holds, "over" 256 "states" (document 02, F-12).
fn reached(rule: &Rule, events: usize) -> Option<usize> {
    let first = demands(rule, vec![0]);
    let mut reached = HashSet::from([first.clone()]);
    let mut waiting = vec![first];
    while let Some(state) = waiting.pop() {
        for event in 0..events {
            let is_for = |node: usize| matches!(rule.nodes()[node], Node::After(own) if usize::from(own) == event);
            let parts = state.iter().filter(|&&node| is_for(node)).map(|node| node + 1).collect();
            let next = demands(rule, parts);
            if reached.insert(next.clone()) {
                waiting.push(next);
            }
            if reached.len() > MAX_STATES {
                return None;
            }
        }
    }
    Some(reached.len())
}

/// The union of the demands of some nodes. A node that was met is not met again: an inner binder may have its outer one's demands by
/// many variables, and that one again (document 02, F-2).
fn demands(rule: &Rule, of: Vec<usize>) -> BTreeSet<usize> {
    let mut met = HashSet::new();
    let mut demands = BTreeSet::new();
    let mut waiting = of;
    while let Some(node) = waiting.pop() {
        if !met.insert(node) {
            continue;
        }
        match rule.nodes()[node] {
            Node::True => {}
            Node::After(_) | Node::Output(..) => {
                demands.insert(node);
            }
            Node::Both => waiting.extend([node + 1, rule.second(node)]),
            Node::Greatest => waiting.push(node + 1),
            Node::Variable(_) => waiting.push(rule.binder(node)),
        }
    }
    demands
}
