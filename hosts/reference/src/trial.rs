//! Trial: does a device do what a rule asks? By simulation, with the grade of a pass and the first failing word, and by the set
//! definition. And whether one rule implies another.

use crate::formula::{Node, Rule};
use crate::refusal::room;
use crate::table::{Lent, Table, MAX_DEVICE_STATES};
use crate::values::{Comparison, RawSetUp, SetUp, Value};
use crate::Refusal;

/// "a failing word may have up to 16,384 events, its buffer at least 16,384 bytes" (document 02, F-12).
pub const WORD_BYTES: usize = 16_384;

/// How a device passes: "passes as same, passes as stricter" (document 02, F-5).
#[derive(Clone, Copy, Debug, PartialEq, Eq, Hash)]
pub enum Grade {
    /// "Same is given exactly if every event sequence ends in equal values."
    Same,
    /// Some event sequence ends in a value strictly below the table's.
    Stricter,
}

/// The answer of a trial.
#[derive(Clone, Debug, PartialEq, Eq)]
pub enum Verdict {
    /// "The device passes when the start is simulated (definition 1) by state 0 of the rule's table." "The two passes together
    /// are the old pass" (document 02, F-5).
    Passes(Grade),
    /// A word of 1 to 16,384 events "after whose last event the device's value is not at or below the table's": "the first: shortest, and
    /// among those the one with the smaller event at the first difference" (document 02, F-1).
    Fails(Vec<u8>),
}

/// The answer of a trial whose word went into lent memory.
#[derive(Clone, Copy, Debug, PartialEq, Eq)]
pub enum Outcome {
    /// The device passes; the word buffer keeps its contents.
    Passes(Grade),
    /// The device fails; the first word is that long.
    Fails(usize),
}

/// A pair of states, and how it was first reached.
struct Pair {
    device: u8,
    table: u8,
    before: usize,
    event: u8,
}

/// Trial of a device from a start against a table from its own start; both tables are of this set-up.
///
/// Two values are equal exactly when each is at or below the other. So a device that passes has equal values on every event sequence
/// exactly when the table, as a device, passes against it too.
pub fn trial(set_up: &SetUp, device: (&Table, usize), table: (&Table, usize)) -> Verdict {
    match failing_word(set_up, device, table) {
        Some(word) => Verdict::Fails(word),
        None if failing_word(set_up, table, device).is_none() => Verdict::Passes(Grade::Same),
        None => Verdict::Passes(Grade::Stricter),
    }
}

/// The first word on which a device fails; none where its start is simulated by the table's.
///
/// The pairs of states that one word reaches together are the least that a simulation of the two starts must contain. They are
/// taken in the order of their shortest, then smallest word, so the failing word is the shortest and then the smallest one.
pub fn failing_word(set_up: &SetUp, device: (&Table, usize), table: (&Table, usize)) -> Option<Vec<u8>> {
    let (device, device_start) = device;
    let (table, table_start) = table;
    // By device state, then table state, whether the two were met.
    let mut met = vec![false; device.states() * table.states()];
    let mut pairs = vec![Pair { device: device_start as u8, table: table_start as u8, before: 0, event: 0 }];
    met[pair_number(table, device_start, table_start)] = true;
    let mut taken = 0;
    while taken < pairs.len() {
        let (s, t) = (usize::from(pairs[taken].device), usize::from(pairs[taken].table));
        for event in 0..set_up.events() {
            if !set_up.at_or_below(device.entry(s, event).value, table.entry(t, event).value) {
                return Some(word_to(&pairs, taken, event as u8));
            }
        }
        for event in 0..set_up.events() {
            let (s, t) = (device.entry(s, event).next, table.entry(t, event).next);
            let met = &mut met[pair_number(table, s.into(), t.into())];
            if !*met {
                *met = true;
                pairs.push(Pair { device: s, table: t, before: taken, event: event as u8 });
            }
        }
        taken += 1;
    }
    None
}

/// The word that first reached a pair, and one event more.
fn word_to(pairs: &[Pair], mut pair: usize, last: u8) -> Vec<u8> {
    let mut word = vec![last];
    while pair != 0 {
        word.push(pairs[pair].event);
        pair = pairs[pair].before;
    }
    word.reverse();
    word
}

/// The first word on which a device fails, by distances: from the start, each time the smallest event that leads one nearer to a
/// failure. The same word as `failing_word`, found from the other end.
pub fn first_word(set_up: &SetUp, device: (&Table, usize), table: (&Table, usize)) -> Option<Vec<u8>> {
    let ((device, mut s), (table, mut t)) = (device, table);
    let fails = |b: Value, c: Value| !set_up.at_or_below(b, c);
    let away = distances(device, table, fails);
    let mut word = Vec::new();
    for left in (0..away[pair_number(table, s, t)]?).rev() {
        let nearer = |&event: &usize| match left {
            0 => fails(device.entry(s, event).value, table.entry(t, event).value),
            _ => away[pair_after(device, table, (s, t), event)] == Some(left),
        };
        let event = (0..set_up.events()).find(nearer)?;
        word.push(event as u8);
        (s, t) = (device.entry(s, event).next.into(), table.entry(t, event).next.into());
    }
    Some(word)
}

/// Whether every event sequence ends in equal values: from the starts no word comes to two that are not, found from the other end. What
/// `trial` calls same, by equality itself.
pub fn same_values(set_up: &SetUp, device: (&Table, usize), table: (&Table, usize)) -> bool {
    let away = distances(device.0, table.0, |b, c| set_up.compare(b, c) != Comparison::Equal);
    away[pair_number(table.0, device.1, table.1)].is_none()
}

/// For each pair of states the length of the shortest word from there whose last values are apart, where there is one: 1 where they are
/// apart on some event, and one more than the least of its successors otherwise. Found backwards, from the pairs where they are apart.
fn distances(device: &Table, table: &Table, apart: impl Fn(Value, Value) -> bool) -> Vec<Option<usize>> {
    let events = device.events();
    let pairs: Vec<(usize, usize)> = (0..device.states()).flat_map(|s| (0..table.states()).map(move |t| (s, t))).collect();
    // The pairs before each pair, one behind another: the last of them, and for each pair and event the one before it.
    let mut last_before = vec![None; pairs.len()];
    let mut before_that = vec![None; pairs.len() * events];
    let mut away = vec![None; pairs.len()];
    let mut reached = Vec::new();
    for (number, &(s, t)) in pairs.iter().enumerate() {
        for event in 0..events {
            let step = number * events + event;
            before_that[step] = last_before[pair_after(device, table, (s, t), event)].replace(step);
        }
        if (0..events).any(|event| apart(device.entry(s, event).value, table.entry(t, event).value)) {
            away[number] = Some(1);
            reached.push(number);
        }
    }
    let mut taken = 0;
    while taken < reached.len() {
        let length = away[reached[taken]].map(|length| length + 1);
        let mut step = last_before[reached[taken]];
        while let Some(this) = step {
            if away[this / events].is_none() {
                away[this / events] = length;
                reached.push(this / events);
            }
            step = before_that[this];
        }
        taken += 1;
    }
    away
}

/// Pairs are numbered by device state, then table state.
fn pair_number(table: &Table, s: usize, t: usize) -> usize {
    s * table.states() + t
}

fn pair_after(device: &Table, table: &Table, (s, t): (usize, usize), event: usize) -> usize {
    pair_number(table, device.entry(s, event).next.into(), table.entry(t, event).next.into())
}

/// Trial against a rule's table that is handed in too, its states and its entries; it starts at state 0: refusals 1 to 3 (or
/// 1, 20), 11, 13.
pub fn trial_of_table(
    set_up: &RawSetUp,
    device: Lent<'_>,
    states: usize,
    table: &[u8],
    word: &mut [u8],
) -> Result<Outcome, Refusal> {
    let set_up = SetUp::new(set_up.clone())?;
    let of_device = device.device(&set_up)?;
    let of_rule = Lent { states, start: 0, bytes: table }.table(&set_up)?;
    judge(&set_up, (&of_device, device.start), &of_rule, word)
}

/// Trial against a rule in bytes: refusals 1 to 3 (or 1, 20), 5 to 8, 23, 9, 10, 11, 13.
pub fn trial_of_rule(set_up: &RawSetUp, device: Lent<'_>, rule: &[u8], word: &mut [u8]) -> Result<Outcome, Refusal> {
    let set_up = SetUp::new(set_up.clone())?;
    let of_rule = Table::of_rule(&set_up, &Rule::from_bytes(&set_up, rule)?)?;
    let of_device = device.device(&set_up)?;
    judge(&set_up, (&of_device, device.start), &of_rule, word)
}

/// 13: a trial's word buffer shorter than 16,384 bytes (document 02, F-12), also where the device passes. Bytes "after the word keep their
/// contents, as does the whole buffer on a pass".
fn judge(set_up: &SetUp, device: (&Table, usize), table: &Table, lent: &mut [u8]) -> Result<Outcome, Refusal> {
    room(lent, WORD_BYTES)?;
    match trial(set_up, device, (table, 0)) {
        Verdict::Passes(grade) => Ok(Outcome::Passes(grade)),
        Verdict::Fails(word) => {
            lent[..word.len()].copy_from_slice(&word);
            Ok(Outcome::Fails(word.len()))
        }
    }
}

/// Whether the first rule implies the second: "every finite device satisfying the first satisfies the second, also one larger than a
/// trial takes" (document 02, F-14). Nothing where it does, else the first failing word of its table against the second's.
///
/// Refusals 1 to 3 (or 1, 20), 5 to 8, 23, 9, 10 of the first rule, the same of the second, then 11 where the first's table has more states
/// than a device may have.
pub fn covers(set_up: &RawSetUp, first: &[u8], second: &[u8]) -> Result<Option<Vec<u8>>, Refusal> {
    let set_up = SetUp::new(set_up.clone())?;
    let first = Table::of_rule(&set_up, &Rule::from_bytes(&set_up, first)?)?;
    let second = Table::of_rule(&set_up, &Rule::from_bytes(&set_up, second)?)?;
    // "exactly when its table, taken as a device from state 0, passes against the second"
    let device = Lent { states: first.states(), start: 0, bytes: &first.to_bytes() }.device(&set_up)?;
    Ok(failing_word(&set_up, (&device, 0), (&second, 0)))
}

/// "The start satisfies the rule when it is in the root's set."
pub fn satisfies(set_up: &SetUp, rule: &Rule, device: &Table, start: usize) -> bool {
    satisfying(set_up, rule, device) >> start & 1 == 1
}

/// The root's set by the set definition, one bit for each state of the device. No table of the rule is made.
///
/// The set of V is "the union of all sets that lie within its part's set when put for its variable", the greatest fixed point.
/// All sets start full and fall until nothing changes. Every fixed point is a greatest one, so sets within others only fall
/// too, and no set has to be filled again when an outer one has fallen.
pub fn satisfying(set_up: &SetUp, rule: &Rule, device: &Table) -> u64 {
    let nodes = rule.nodes();
    let all = u64::MAX >> MAX_DEVICE_STATES.checked_sub(device.states()).expect("a device has at most 64 states");
    let states_where = |holds: &dyn Fn(usize) -> bool| {
        (0..device.states()).filter(|&state| holds(state)).fold(0u64, |set, state| set | 1 << state)
    };
    let mut sets = vec![all; nodes.len()];
    loop {
        let mut changed = false;
        for (number, node) in nodes.iter().enumerate().rev() {
            let set = match *node {
                // "T has all states"
                Node::True => all,
                // "X the set put for its variable"
                Node::Variable(_) => sets[rule.binder(number)],
                // "G the states whose next state on its event is in its part's set"
                Node::After(event) => {
                    let part = sets[number + 1];
                    states_where(&|state| part >> device.entry(state, usize::from(event)).next & 1 == 1)
                }
                // "O those whose value on its event is at or below its own"
                Node::Output(event, value) => {
                    states_where(&|state| set_up.at_or_below(device.entry(state, usize::from(event)).value, value))
                }
                // "A what both parts share"
                Node::Both => sets[number + 1] & sets[rule.second(number)],
                // The part's set for the set last put for the variable.
                Node::Greatest => sets[number + 1],
            };
            changed |= set != sets[number];
            sets[number] = set;
        }
        if !changed {
            return sets[0];
        }
    }
}
