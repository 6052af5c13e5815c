//! Random good and damaged inputs: refusals held against the list of document 01 read to the letter, and lent memory.

mod common;

use std::collections::BTreeMap;

use common::seeds;
use gurvazze_reference::channel_file::{self, lines_of, read, read_of, tokens_of};
use gurvazze_reference::formula::Rule;
use gurvazze_reference::generate::Generator;
use gurvazze_reference::table::{compile, Entry, Lent, Table};
use gurvazze_reference::trial::{covers, trial, trial_of_rule, trial_of_table, Outcome, Verdict, WORD_BYTES};
use gurvazze_reference::values::{Kind, RawNumbers, RawSetUp, RawValues, SetUp, Value};
use gurvazze_reference::{characteristic, render, Refusal};

/// How often each refusal arose, 0 for acceptance.
#[derive(Default)]
struct Tally(BTreeMap<u8, usize>);

impl Tally {
    fn add<T>(&mut self, result: &Result<T, Refusal>) {
        *self.0.entry(result.as_ref().err().map_or(0, |refusal| refusal.number)).or_default() += 1;
    }

    fn has(&self, numbers: &[u8]) {
        for number in numbers {
            assert!(self.0.get(number).is_some_and(|&count| count >= 5), "{number} hardly arose: {:?}", self.0);
        }
    }
}

const KINDS: [Kind; 2] = [Kind::Numbers, Kind::Register];

/// Refusals 1 and 20, with numbers of any size.
fn register_refusal(events: usize, lines: usize) -> Result<(), Refusal> {
    match (events, lines) {
        (1..=16, 1..=16) => Ok(()),
        (1..=16, _) => Err(Refusal::new(20)),
        _ => Err(Refusal::new(1)),
    }
}

/// Refusals 1 to 3, with numbers of any size.
fn set_up_refusal(events: usize, values: usize, top: usize, meet: &[usize]) -> Result<(), Refusal> {
    if !(1..=16).contains(&events) {
        return Err(Refusal::new(1));
    }
    if !(1..=16).contains(&values) || top >= values {
        return Err(Refusal::new(2));
    }
    let three = Err(Refusal::new(3));
    if meet.len() != values * values || meet.iter().any(|&entry| entry >= values) {
        return three;
    }
    let rows: Vec<&[usize]> = meet.chunks(values).collect();
    for b in 0..values {
        for c in 0..values {
            for d in 0..values {
                let laws = rows[b][b] == b
                    && rows[b][c] == rows[c][b]
                    && rows[rows[b][c]][d] == rows[b][rows[c][d]]
                    && rows[top][b] == b
                    && rows[b][top] == b;
                if !laws {
                    return three;
                }
            }
        }
    }
    Ok(())
}

#[test]
fn set_ups_are_refused_by_the_list() {
    let mut tally = Tally::default();
    for seed in seeds(3000) {
        let mut g = Generator::new(seed);
        let kind = g.one_of(&KINDS);
        let raw = if g.once_in(5) { g.set_up_of(kind).raw().clone() } else { g.damaged_set_up_of(kind) };
        let expected = match &raw.values {
            RawValues::Numbers(numbers) => {
                let meet: Vec<usize> = numbers.meet.iter().map(|&entry| entry.into()).collect();
                set_up_refusal(raw.events, numbers.values, numbers.top, &meet)
            }
            RawValues::Register { lines } => register_refusal(raw.events, *lines),
        };
        assert_eq!(raw.check(), expected, "seed {seed}: {raw:?}");
        tally.add(&expected);
    }
    tally.has(&[0, 1, 2, 3, 20]);
}

/// A node with fields of any size: kind, first, and the value's numbers, of which document 01's has one and a 0.
type RawNode = (u8, usize, [usize; 2]);

/// The number that all numbers of a value are below.
fn limit_of(raw: &RawSetUp) -> usize {
    match &raw.values {
        RawValues::Numbers(numbers) => numbers.values,
        RawValues::Register { lines } => 1 << lines,
    }
}

/// The node in so many bytes.
fn raw_node(kind: Kind, bytes: &[u8]) -> RawNode {
    let mask = |at: usize| usize::from(bytes[at]) + 256 * usize::from(bytes[at + 1]);
    let value = match kind {
        Kind::Numbers => [bytes[2].into(), 0],
        Kind::Register => [mask(2), mask(4)],
    };
    (bytes[0], bytes[1].into(), value)
}

/// Refusals 5 to 8, 23 and 9 on nodes with fields of any size.
fn rule_refusal(events: usize, limit: usize, nodes: &[RawNode]) -> Result<(), Refusal> {
    if nodes.is_empty() || nodes.len() > 256 {
        return Err(Refusal::new(5));
    }
    let lowest = |number: u8, bad: &dyn Fn(usize) -> bool| match (0..nodes.len()).find(|&node| bad(node)) {
        Some(place) => Err(Refusal::at(number, place)),
        None => Ok(()),
    };
    lowest(6, &|node| match nodes[node] {
        (0 | 4 | 5, first, value) => first != 0 || value != [0, 0],
        (1, _, value) => value != [0, 0],
        (2, first, value) => first >= events || value != [0, 0],
        (3, first, value) => first >= events || value.iter().any(|&number| number >= limit),
        _ => true,
    })?;
    // Each node's parent, found by reading whole parts.
    let mut parents = vec![None; nodes.len()];
    match whole(nodes, 0, &mut parents) {
        None => return Err(Refusal::at(7, nodes.len())),
        Some(end) if end < nodes.len() => return Err(Refusal::at(7, end)),
        Some(_) => {}
    }
    let above = |node: usize| std::iter::successors(parents[node], |&parent| parents[parent]);
    let is_variable = |node: usize| nodes[node].0 == 1;
    let binders = |node: usize| above(node).filter(|&n| nodes[n].0 == 5);
    lowest(8, &|node| is_variable(node) && binders(node).count() <= nodes[node].1)?;
    // "23, a path with more than twelve V nodes, after 8 and before 9 for a rule".
    if (0..nodes.len()).any(|node| binders(node).count() > 12) {
        return Err(Refusal::new(23));
    }
    // "A variable is in order when a G lies between it and its own binder. Refusal 9 is given only where none does."
    let own_binder = |node: usize| binders(node).nth(nodes[node].1);
    let is_guarded = |node: usize| above(node).take_while(|&n| Some(n) != own_binder(node)).any(|n| nodes[n].0 == 2);
    lowest(9, &|node| is_variable(node) && !is_guarded(node))
}

/// Where the part that begins at a node ends, or nothing when nodes run out.
fn whole(nodes: &[RawNode], node: usize, parents: &mut [Option<usize>]) -> Option<usize> {
    let parts = match nodes.get(node)?.0 {
        4 => 2,
        2 | 5 => 1,
        _ => 0,
    };
    let mut end = node + 1;
    for _ in 0..parts {
        if end < nodes.len() {
            parents[end] = Some(node);
        }
        end = whole(nodes, end, parents)?;
    }
    Some(end)
}

#[test]
fn rules_are_refused_by_the_list() {
    let mut tally = Tally::default();
    for seed in seeds(5000) {
        let mut g = Generator::new(seed);
        let set_up = g.any_set_up();
        let bytes = if g.once_in(6) { g.rule(&set_up).to_bytes() } else { g.damaged_rule(&set_up) };
        let (kind, each) = (set_up.kind(), if set_up.kind() == Kind::Register { 6 } else { 3 });
        let expected = if bytes.len() % each == 0 {
            let nodes: Vec<RawNode> = bytes.chunks(each).map(|node| raw_node(kind, node)).collect();
            rule_refusal(set_up.events(), limit_of(set_up.raw()), &nodes)
        } else {
            Err(Refusal::new(5))
        };
        let rule = Rule::from_bytes(&set_up, &bytes);
        tally.add(&rule);
        match rule {
            Ok(rule) => {
                assert_eq!(expected, Ok(()), "seed {seed}");
                assert_eq!(rule.to_bytes(), bytes);
            }
            Err(refusal) => assert_eq!(expected, Err(refusal), "seed {seed}: {bytes:?}"),
        }
    }
    tally.has(&[0, 5, 6, 7, 8, 9, 23]);
}

#[test]
fn tables_are_refused_by_the_list() {
    let (mut large, mut only_no_device) = (0, 0);
    for seed in seeds(1000) {
        let mut g = Generator::new(seed);
        let set_up = g.any_set_up();
        let good = g.table(&set_up);
        assert_eq!(good.lent().table(&set_up).map(|table| table.to_bytes()), Ok(good.bytes.clone()), "seed {seed}");
        large += usize::from(good.states > 64);
        let expected = if good.states > 64 { Err(Refusal::new(11)) } else { Ok(good.bytes.clone()) };
        assert_eq!(good.lent().device(&set_up).map(|table| table.to_bytes()), expected, "seed {seed}");
        let damaged = g.damaged_table(&set_up);
        assert_eq!(damaged.lent().table(&set_up), Err(Refusal::new(11)), "seed {seed}: {damaged:?}");
        assert_eq!(damaged.lent().device(&set_up), Err(Refusal::new(11)), "seed {seed}: {damaged:?}");
        let damaged = g.damaged_device(&set_up);
        assert_eq!(damaged.lent().device(&set_up), Err(Refusal::new(11)), "seed {seed}: {damaged:?}");
        only_no_device += usize::from(damaged.lent().table(&set_up).is_ok());
        let device = g.device(&set_up);
        assert_eq!(device.lent().device(&set_up), device.lent().table(&set_up), "seed {seed}");
        assert!(device.lent().device(&set_up).is_ok(), "seed {seed}");
    }
    assert!(large > 20 && only_no_device > 20, "{large} large tables, {only_no_device} that are no devices");
}

fn is_number(text: &str) -> bool {
    is_of_digits(text, 3)
}

/// One digit to so many, no leading zero.
fn is_of_digits(text: &str, most: usize) -> bool {
    text == "0" || (1..=most).contains(&text.len()) && text.bytes().all(|b| b.is_ascii_digit()) && !text.starts_with('0')
}

fn is_item(kind: Kind, text: &str) -> bool {
    match text.split_at_checked(1) {
        Some(("T" | "A" | "V", rest)) => rest.is_empty(),
        Some(("X" | "G", rest)) => is_number(rest),
        Some(("O", rest)) => match (kind, &rest.split('.').collect::<Vec<&str>>()[..]) {
            (Kind::Numbers, [event, value]) => is_number(event) && is_number(value),
            // "a mask has up to five digits ...; other numbers keep three digits".
            (Kind::Register, [event, low, high]) => is_number(event) && is_of_digits(low, 5) && is_of_digits(high, 5),
            _ => false,
        },
        _ => false,
    }
}

/// Whether a text is in the form, its length apart.
fn in_form(kind: Kind, text: &[u8]) -> bool {
    let Some(text) = std::str::from_utf8(text).ok().and_then(|text| text.strip_suffix('\n')) else { return false };
    let lines: Vec<&str> = text.split('\n').collect();
    let after = |line: &str, name: &str, is: &dyn Fn(&str) -> bool| line.strip_prefix(name).is_some_and(is);
    let is_rule = |rule: &str| after(rule, "rule=", &|items| items.split(' ').all(|item| is_item(kind, item)));
    match (kind, &lines[..]) {
        (Kind::Numbers, [events, values, top, meet, rule]) => {
            after(events, "events=", &is_number)
                && after(values, "values=", &is_number)
                && after(top, "top=", &is_number)
                && after(meet, "meet=", &|items| items.split(' ').all(is_number))
                && is_rule(rule)
        }
        (Kind::Register, [events, lines, rule]) => {
            after(events, "events=", &is_number) && after(lines, "lines=", &is_number) && is_rule(rule)
        }
        _ => false,
    }
}

/// Whether some text of the form begins so. Any beginning that can be completed can be so by an end of this text.
fn begins_a_text(kind: Kind, start: &[u8]) -> bool {
    let whole: &[u8] = match kind {
        Kind::Numbers => b"events=0\nvalues=0\ntop=0\nmeet=0\nrule=O0.0\n",
        Kind::Register => b"events=0\nlines=0\nrule=O0.0.0\n",
    };
    (0..=whole.len()).any(|from| in_form(kind, &[start, &whole[from..]].concat()))
}

#[test]
fn places_of_4_are_by_the_sentence() {
    let mut tally = Tally::default();
    for seed in seeds(1200) {
        let mut g = Generator::new(seed);
        let kind = g.one_of(&KINDS);
        let text = if g.once_in(6) { g.loose_file_of(kind) } else { g.damaged_file_of(kind) };
        let result = lines_of(kind, &text);
        tally.add(&result);
        if text.len() > 4096 {
            assert_eq!(result, Err(Refusal::at(4, 4096)));
            continue;
        }
        match result {
            Ok(_) => assert!(in_form(kind, &text), "seed {seed}"),
            Err(Refusal { number: 4, place: Some(place) }) => {
                assert!(!in_form(kind, &text), "seed {seed}");
                assert!(begins_a_text(kind, &text[..place]), "seed {seed}, place {place}");
                assert!(place == text.len() || !begins_a_text(kind, &text[..=place]), "seed {seed}, place {place}");
            }
            other => panic!("seed {seed}: {other:?}"),
        }
    }
    tally.has(&[0, 4]);
}

/// Every cut of a file ends early.
#[test]
fn cut_files_end_early() {
    for (seed, kind) in seeds(20).flat_map(|seed| KINDS.map(|kind| (seed, kind))) {
        let text = Generator::new(seed).file_of(kind);
        for length in 0..text.len() {
            assert_eq!(lines_of(kind, &text[..length]), Err(Refusal::at(4, length)), "seed {seed}");
        }
    }
}

/// What reading a text in the form should say, from its pieces as whole numbers.
fn file_refusal(kind: Kind, text: &[u8]) -> Result<(), Refusal> {
    let text = std::str::from_utf8(text).unwrap();
    let rest: Vec<&str> = text.lines().map(|line| line.split_once('=').unwrap().1).collect();
    let number = |text: &str| text.parse::<usize>().unwrap();
    let (events, values) = (number(rest[0]), number(rest[1]));
    let limit = match kind {
        Kind::Numbers => {
            let meet: Vec<usize> = rest[3].split(' ').map(number).collect();
            set_up_refusal(events, values, number(rest[2]), &meet)?;
            values
        }
        Kind::Register => {
            register_refusal(events, values)?;
            1 << values
        }
    };
    let nodes: Vec<RawNode> = rest[rest.len() - 1]
        .split(' ')
        .map(|item| {
            let (letter, numbers) = item.split_at(1);
            let mut numbers = numbers.split('.').map(|text| if text.is_empty() { 0 } else { number(text) });
            let mut next = || numbers.next().unwrap_or(0);
            ("TXGOAV".find(letter).unwrap() as u8, next(), [next(), next()])
        })
        .collect();
    rule_refusal(events, limit, &nodes)
}

#[test]
fn files_are_refused_by_the_list() {
    judge_files(Kind::Numbers).has(&[0, 1, 2, 3, 4, 5, 6, 7, 8, 9, 10, 23]);
}

/// "It has a reader of its own" (document 02, F-7).
#[test]
fn files_of_registers_are_refused_by_the_list() {
    judge_files(Kind::Register).has(&[0, 1, 20, 4, 5, 6, 7, 8, 9, 10, 23]);
}

fn judge_files(kind: Kind) -> Tally {
    let mut tally = Tally::default();
    for seed in seeds(2000) {
        let mut g = Generator::new(seed);
        let text = match g.below(8) {
            0 => g.file_of(kind),
            1 => g.damaged_file_of(kind),
            _ => g.loose_file_of(kind),
        };
        let result = read_of(kind, &text);
        let in_form = text.len() <= 4096 && in_form(kind, &text);
        if in_form {
            assert_eq!(result.as_ref().map(|_| ()).map_err(|&refusal| refusal), file_refusal(kind, &text), "seed {seed}");
            let rule_line = text.iter().rposition(|&byte| byte == b'=').unwrap() + 1;
            assert_eq!(tokens_of(kind, &text), &text[rule_line..text.len() - 1]);
        } else {
            assert_eq!(result.as_ref().map_err(|refusal| refusal.number), Err(4), "seed {seed}");
            assert!(tokens_of(kind, &text).is_empty());
        }
        // No text is in both forms.
        let other = if kind == Kind::Numbers { Kind::Register } else { Kind::Numbers };
        assert_eq!(read_of(other, &text).map_err(|refusal| refusal.number), Err(4), "seed {seed}");
        let made = result.and_then(|file| {
            // The form leaves one way to write a file.
            assert_eq!(channel_file::to_text(&file.set_up, &file.rule).as_bytes(), &text[..], "seed {seed}");
            Table::of_rule(&file.set_up, &file.rule)
        });
        tally.add(&made);
        let printed = render::program_of(kind, &text);
        match made {
            Ok(table) => assert_eq!(parse_rows(kind, &printed), (table.events(), table.states(), table.entries().to_vec())),
            Err(Refusal { number, place: Some(place) }) => assert_eq!(printed, format!("refused={number} {place}\n")),
            Err(Refusal { number, place: None }) => assert_eq!(printed, format!("refused={number}\n")),
        }
    }
    tally
}

/// Reads a printed table back.
fn parse_rows(kind: Kind, printed: &str) -> (usize, usize, Vec<Entry>) {
    let mut lines = printed.strip_suffix('\n').unwrap().split('\n');
    let mut count = |name: &str| lines.next().unwrap().strip_prefix(name).unwrap().parse::<usize>().unwrap();
    let (events, states) = (count("events="), count("states="));
    let entries: Vec<Entry> = lines
        .enumerate()
        .map(|(index, line)| {
            let row: Vec<usize> = line.strip_prefix("row=").unwrap().split(' ').map(|n| n.parse().unwrap()).collect();
            assert_eq!((row[0], row[1]), (index / events, index % events));
            match (kind, &row[2..]) {
                (Kind::Numbers, &[value, next]) => Entry { value: value as Value, next: next as u8 },
                (Kind::Register, &[low, high, next]) => Entry { value: (low + 65_536 * high) as Value, next: next as u8 },
                _ => panic!("{line}"),
            }
        })
        .collect();
    assert_eq!(entries.len(), events * states);
    (events, states, entries)
}

#[test]
fn reading_undoes_writing() {
    for seed in seeds(900) {
        let mut g = Generator::new(seed);
        let set_up = g.any_set_up();
        let rule = g.rule(&set_up);
        let mut lent = vec![7; 4096];
        let length = channel_file::write(set_up.raw(), &rule.to_bytes(), &mut lent).unwrap();
        let file = read_of(set_up.kind(), &lent[..length]).unwrap();
        assert_eq!((file.set_up, file.rule), (set_up, rule), "seed {seed}");
        assert!(lent[length..].iter().all(|&byte| byte == 7));
    }
}

/// A set-up, a rule in bytes, each often good.
fn inputs(g: &mut Generator) -> (RawSetUp, SetUp, Vec<u8>) {
    let good = g.any_set_up();
    let raw = if g.once_in(5) { g.damaged_set_up_of(good.kind()) } else { good.raw().clone() };
    let rule = match g.below(4) {
        0 => g.damaged_rule(&good),
        1 if g.once_in(2) => {
            let event = g.below(good.events());
            g.large_rule(&good, event).to_bytes()
        }
        1 => g.rule_of_loops(&good).to_bytes(),
        _ => g.rule(&good).to_bytes(),
    };
    (raw, good, rule)
}

/// A lent buffer, at times too short.
fn buffer(g: &mut Generator, needed: usize) -> Vec<u8> {
    let length = match g.below(4) {
        0 => g.below(needed + 1),
        1 => needed,
        _ => needed + g.below(20),
    };
    g.bytes(length)
}

/// Runs a call on lent memory. It must do what is expected: on refusal nothing changes, else the output stands at the start and
/// the rest keeps its contents. 13 is last.
fn on_lent(
    mut lent: Vec<u8>,
    expected: Result<Vec<u8>, Refusal>,
    needed: usize,
    call: impl FnOnce(&mut [u8]) -> Result<(), Refusal>,
) -> Result<(), Refusal> {
    let before = lent.clone();
    let result = call(&mut lent);
    match expected {
        Err(refusal) => {
            assert_eq!(result, Err(refusal));
            assert_eq!(lent, before);
        }
        Ok(_) if before.len() < needed => {
            assert_eq!(result, Err(Refusal::new(13)));
            assert_eq!(lent, before);
        }
        Ok(output) => {
            assert_eq!(result, Ok(()));
            assert_eq!(lent[..output.len()], output);
            assert_eq!(lent[output.len()..], before[output.len()..]);
        }
    }
    result
}

#[test]
fn refusals_leave_lent_memory() {
    let mut tallies: [Tally; 5] = Default::default();
    for seed in seeds(2000) {
        let mut g = Generator::new(seed);
        let (raw, good, rule) = inputs(&mut g);
        let set_up = SetUp::new(raw.clone());
        let checked = set_up.clone().and_then(|set_up| Ok((Rule::from_bytes(&set_up, &rule)?, set_up)));
        let compiled = checked.clone().and_then(|(rule, set_up)| Table::of_rule(&set_up, &rule));

        let expected = compiled.clone().map(|table| table.to_bytes());
        let needed = expected.as_ref().map_or(9, Vec::len);
        let lent = buffer(&mut g, needed);
        tallies[0].add(&on_lent(lent, expected, needed, |lent| {
            compile(&raw, &rule, lent).map(|states| assert_eq!(states, compiled.as_ref().unwrap().states()))
        }));

        let expected = checked.clone().map(|(rule, set_up)| channel_file::to_text(&set_up, &rule).into_bytes());
        let needed = expected.as_ref().map_or(9, Vec::len);
        let lent = buffer(&mut g, needed);
        tallies[1].add(&on_lent(lent, expected, needed, |lent| {
            channel_file::write(&raw, &rule, lent).map(|length| assert_eq!(length, needed))
        }));

        let table = match g.below(4) {
            0 => g.damaged_table(&good),
            1 => g.chain(&good),
            _ => g.table(&good),
        };
        let expected = set_up
            .clone()
            .and_then(|set_up| table.lent().table(&set_up))
            .and_then(|typed| characteristic::rule_of(&typed, table.start))
            .map(|rule| rule.to_bytes());
        let needed = expected.as_ref().map_or(9, Vec::len);
        let lent = buffer(&mut g, needed);
        tallies[2].add(&on_lent(lent, expected, needed, |lent| {
            let node_bytes = if raw.kind() == Kind::Register { 6 } else { 3 };
            characteristic::write_rule(&raw, table.lent(), lent).map(|nodes| assert_eq!(node_bytes * nodes, needed))
        }));

        let device = if g.once_in(4) { g.damaged_device(&good) } else { g.device(&good) };
        let device_table = set_up.clone().and_then(|set_up| device.lent().device(&set_up));

        let judge =
            |device: &Table, start: usize, table: &Table| match trial(set_up.as_ref().unwrap(), (device, start), (table, 0)) {
                Verdict::Passes(grade) => (Outcome::Passes(grade), Vec::new()),
                Verdict::Fails(word) => (Outcome::Fails(word.len()), word),
            };
        let expected = compiled.and_then(|table| {
            let device_table = device_table.clone()?;
            Ok(judge(&device_table, device.start, &table))
        });
        let outcome = expected.clone().map(|(outcome, _)| outcome);
        let word = expected.map(|(_, word)| word);
        let lent = buffer(&mut g, WORD_BYTES);
        tallies[3].add(&on_lent(lent, word, WORD_BYTES, |lent| {
            trial_of_rule(&raw, device.lent(), &rule, lent).map(|found| assert_eq!(Ok(found), outcome))
        }));

        let other = if g.once_in(4) { g.damaged_table(&good) } else { g.table(&good) };
        let expected = set_up.clone().and_then(|set_up| {
            let table = Lent { start: 0, ..other.lent() }.table(&set_up)?;
            let device_table = device_table?;
            Ok(judge(&device_table, device.start, &table))
        });
        let outcome = expected.clone().map(|(outcome, _)| outcome);
        let word = expected.map(|(_, word)| word);
        let lent = buffer(&mut g, WORD_BYTES);
        tallies[4].add(&on_lent(lent, word, WORD_BYTES, |lent| {
            trial_of_table(&raw, device.lent(), other.states, &other.bytes, lent).map(|found| assert_eq!(Ok(found), outcome))
        }));
    }
    tallies[0].has(&[0, 1, 2, 3, 20, 5, 6, 7, 8, 9, 10, 13, 23]);
    tallies[1].has(&[0, 1, 2, 3, 20, 5, 6, 7, 8, 9, 13, 23]);
    tallies[2].has(&[0, 1, 2, 3, 20, 11, 12, 13, 23]);
    tallies[3].has(&[0, 1, 2, 3, 20, 5, 6, 7, 8, 9, 10, 11, 13, 23]);
    tallies[4].has(&[0, 1, 2, 3, 20, 11, 13]);
}

/// Document 02, F-14: covering meets what compiling the first rule meets, then what compiling the second meets.
#[test]
fn covering_is_refused_by_the_first_rule_then_by_the_second() {
    let (mut of_first, mut of_second) = (Tally::default(), Tally::default());
    for seed in seeds(2500) {
        let mut g = Generator::new(seed);
        let (raw, good, first) = inputs(&mut g);
        let second = match g.below(4) {
            0 => g.rule(&good).to_bytes(),
            1 => g.rule_of_loops(&good).to_bytes(),
            _ => g.damaged_rule(&good),
        };
        let compiled = |rule: &[u8]| compile(&raw, rule, &mut [0; 20_480]);
        let answer = covers(&raw, &first, &second);
        let expected = compiled(&first).and_then(|states| {
            compiled(&second)?;
            // Then the first has to be a device (document 02, F-12).
            if states > 64 {
                return Err(Refusal::new(11));
            }
            Ok(())
        });
        assert_eq!(answer.as_ref().err(), expected.as_ref().err(), "seed {seed}");
        if compiled(&first).is_err() { &mut of_first } else { &mut of_second }.add(&answer);
    }
    of_first.has(&[1, 2, 3, 20, 5, 6, 7, 8, 9, 10, 23]);
    of_second.has(&[0, 5, 6, 7, 8, 9, 10, 11, 23]);
}

/// The values of a set-up of numbers.
fn numbers_of(set_up: &SetUp) -> &RawNumbers {
    match &set_up.raw().values {
        RawValues::Numbers(numbers) => numbers,
        RawValues::Register { .. } => panic!("the set-up is one of numbers"),
    }
}

#[test]
fn reading_registers_into_lent_memory() {
    let mut tally = Tally::default();
    for seed in seeds(1500) {
        let mut g = Generator::new(seed);
        let text = if g.once_in(2) { g.file_of(Kind::Register) } else { g.loose_file_of(Kind::Register) };
        let result = read_of(Kind::Register, &text);
        let expected = result.clone().map(|file| file.rule.to_bytes());
        let needed = expected.as_ref().map_or(9, Vec::len);
        let lent = buffer(&mut g, needed);
        tally.add(&on_lent(lent, expected, needed, |lent| {
            let sizes = channel_file::read_register_into(&text, lent)?;
            let file = result.as_ref().unwrap();
            assert_eq!(RawSetUp::register(sizes.events, sizes.lines), *file.set_up.raw());
            assert_eq!(6 * sizes.nodes, needed);
            Ok(())
        }));
    }
    tally.has(&[0, 1, 20, 5, 6, 7, 8, 9, 13, 23]);
}

#[test]
fn reading_into_lent_memory() {
    let mut tally = Tally::default();
    for seed in seeds(1500) {
        let mut g = Generator::new(seed);
        let text = if g.once_in(2) { g.file() } else { g.loose_file() };
        let result = read(&text);
        let (meet_bytes, rule_bytes) = match &result {
            Ok(file) => (numbers_of(&file.set_up).meet.clone(), file.rule.to_bytes()),
            Err(_) => (vec![0; 4], vec![0; 9]),
        };
        let (mut meet, mut rule) = (buffer(&mut g, meet_bytes.len()), buffer(&mut g, rule_bytes.len()));
        let (meet_before, rule_before) = (meet.clone(), rule.clone());
        let sizes = channel_file::read_into(&text, &mut meet, &mut rule);
        tally.add(&sizes);
        match (result, sizes) {
            (Ok(file), Ok(sizes)) => {
                let numbers = numbers_of(&file.set_up);
                assert_eq!((sizes.events, sizes.values, sizes.top), (file.set_up.events(), numbers.values, numbers.top));
                assert_eq!(3 * sizes.nodes, rule_bytes.len());
                assert_eq!(meet, [&meet_bytes, &meet_before[meet_bytes.len()..]].concat());
                assert_eq!(rule, [&rule_bytes, &rule_before[rule_bytes.len()..]].concat());
            }
            (result, sizes) => {
                assert_eq!(sizes.unwrap_err(), result.err().unwrap_or(Refusal::new(13)), "seed {seed}");
                assert!(sizes != Err(Refusal::new(13)) || meet.len() < meet_bytes.len() || rule.len() < rule_bytes.len());
                assert_eq!((meet, rule), (meet_before, rule_before));
            }
        }
    }
    tally.has(&[0, 1, 2, 3, 5, 6, 7, 8, 9, 13, 23]);
}

/// Set-ups of every size are drawn, orders that are no chain among them.
#[test]
fn set_ups_of_every_size_are_drawn() {
    let (mut events, mut values, mut lines, mut apart) = ([0; 17], [0; 17], [0; 17], 0);
    for seed in 0..1500 {
        let register = Generator::new(seed).register();
        events[register.events()] += 1;
        lines[register.top().count_ones() as usize / 2] += 1;
        let set_up = Generator::new(seed).set_up();
        events[set_up.events()] += 1;
        values[numbers_of(&set_up).values] += 1;
        let all = 0..numbers_of(&set_up).values as Value;
        let is_chain = all.clone().all(|b| all.clone().all(|c| set_up.at_or_below(b, c) || set_up.at_or_below(c, b)));
        apart += usize::from(!is_chain);
    }
    assert!(events[1..].iter().all(|&count| count > 2), "{events:?}");
    assert!(values[1..].iter().all(|&count| count > 2), "{values:?}");
    assert!(lines[1..].iter().all(|&count| count > 2), "{lines:?}");
    assert!(apart > 500, "{apart}");
}

#[test]
fn equal_seeds_give_equal_inputs() {
    let draw = |seed: u64| {
        let mut g = Generator::new(seed);
        let set_up = g.set_up();
        let of_numbers =
            (g.rule(&set_up).to_bytes(), g.table(&set_up), g.calls(&set_up, 20), g.file(), g.damaged_file(), g.loose_file());
        let register = g.register();
        let of_register = (g.rule(&register).to_bytes(), g.table(&register), g.calls(&register, 20));
        (of_numbers, of_register, KINDS.map(|kind| (g.file_of(kind), g.damaged_file_of(kind), g.loose_file_of(kind))))
    };
    assert!((0..50).all(|seed| draw(seed) == draw(seed)));
    assert!((0..50).all(|seed| draw(seed) != draw(seed + 1)));
    for length in 100..200 {
        for kind in KINDS {
            let text = Generator::new(length as u64).long_file_of(kind, length);
            assert!(text.len() == length && in_form(kind, &text));
        }
    }
}
