//! Seeded inputs, good and damaged, given to both versions of each call.

mod both;

use std::collections::BTreeMap;
use std::fmt::Debug;

use both::{compile, covers, replay, rule, table, trial, trial_table, Called};
use gurvazze_reference::channel_file::{self, ChannelFile};
use gurvazze_reference::formula::{joined, Node, Rule};
use gurvazze_reference::generate::{
    has_most_binders, has_variable_under_inner_binder, inner_binders, under, Generator, RawTable,
};
use gurvazze_reference::table::{in_bytes, Entry, Table};
use gurvazze_reference::trial::{first_word, same_values, Grade, Outcome, WORD_BYTES};
use gurvazze_reference::values::{masks_of, of_masks, Kind, RawSetUp, SetUp, Value};

/// Every table has room in so many bytes: 256 states, 16 events.
const fn table_bytes(kind: Kind) -> usize {
    256 * 16 * kind.entry_bytes()
}

/// Every rule has room in so many bytes: 256 nodes.
const fn rule_bytes(kind: Kind) -> usize {
    256 * kind.node_bytes()
}

/// The refusals of a set-up: 1 to 3; for a register 1, then 20 in the place of 2 and 3 (document 02, F-7).
const fn of_set_up(kind: Kind) -> &'static [u8] {
    match kind {
        Kind::Numbers => &[1, 2, 3],
        Kind::Register => &[1, 20],
    }
}

/// So many seeds, times the number in the environment's SEEDS_TIMES where there is one.
fn seeds(count: u64) -> std::ops::Range<u64> {
    let times = std::env::var("SEEDS_TIMES").ok().and_then(|times| times.parse().ok()).unwrap_or(1);
    0..count * times
}

/// How often each refusal arose, 0 for acceptance.
#[derive(Default)]
struct Tally(BTreeMap<u8, usize>);

impl Tally {
    /// Compares both answers and buffers, and counts them.
    fn compare<T: Debug + PartialEq>(
        &mut self,
        library: Called<T>,
        reference: Called<T>,
        old: &[u8],
        what: impl Fn() -> String,
    ) {
        assert!(library.0 == reference.0, "{:?}, the reference {:?}: {}", library.0, reference.0, what());
        assert!(library.1 == reference.1, "the buffers differ after {:?}: {}", library.0, what());
        if library.0.is_err() {
            assert!(library.1 == old, "a refused call wrote: {}", what());
        }
        *self.0.entry(library.0.err().map_or(0, |refusal| refusal.0)).or_default() += 1;
    }

    /// Each of these arose often enough to mean something.
    fn has(&self, numbers: &[u8]) {
        for number in numbers {
            assert!(self.0.get(number).is_some_and(|&count| count >= 20), "{number} hardly arose: {:?}", self.0);
        }
        println!("{:?}", self.0);
    }
}

/// A channel file for values of this kind, good or damaged.
fn text(generator: &mut Generator, kind: Kind) -> Vec<u8> {
    match generator.below(10) {
        0 if generator.once_in(3) => large_file(generator, kind),
        0..=5 => generator.file_of(kind),
        6 | 7 => generator.loose_file_of(kind),
        8 => generator.damaged_file_of(kind),
        _ => {
            let length = generator.between(100, 4100);
            generator.long_file_of(kind, length)
        }
    }
}

/// A channel file whose rule has many states (document 02, F-12), at times too many.
fn large_file(generator: &mut Generator, kind: Kind) -> Vec<u8> {
    let set_up = generator.set_up_of(kind);
    let event = generator.below(set_up.events());
    let rule = generator.large_rule(&set_up, event);
    channel_file::to_text(&set_up, &rule).into_bytes()
}

/// A good channel file and what it says.
fn good(generator: &mut Generator, kind: Kind) -> (Vec<u8>, ChannelFile) {
    let text = generator.file_of(kind);
    let file = channel_file::read_of(kind, &text).expect("a file is accepted");
    (text, file)
}

/// A buffer for an output of so many bytes, at times too short, with old contents.
fn buffer(generator: &mut Generator, output: usize) -> Vec<u8> {
    let length = match generator.below(8) {
        0 => output.saturating_sub(1),
        1 => generator.below(output + 1),
        2 => 0,
        3 => output,
        _ => output + generator.below(40),
    };
    generator.bytes(length)
}

/// Whether a file's rule has a variable under an inner binder (document 02, F-2).
fn is_wide(kind: Kind, text: &[u8]) -> bool {
    channel_file::read_of(kind, text).is_ok_and(|file| has_variable_under_inner_binder(&file.rule))
}

/// Whether a file's rule has as many binders on a path as it may have (document 02, F-9).
fn is_deep(kind: Kind, text: &[u8]) -> bool {
    channel_file::read_of(kind, text).is_ok_and(|file| has_most_binders(&file.rule))
}

fn shown(text: &[u8]) -> String {
    String::from_utf8_lossy(text).into_owned()
}

/// Channel files for values of this kind.
fn tables_of(kind: Kind, count: u64) {
    let mut tally = Tally::default();
    let (mut wide, mut deep, mut large, mut most) = (0, 0, 0, 0);
    for seed in seeds(count) {
        let mut generator = Generator::new(seed);
        let text = text(&mut generator, kind);
        let output = match table::reference(kind, &text, &vec![0; table_bytes(kind)]).0 {
            Ok((states, events, _, _)) => states * events * kind.entry_bytes(),
            Err(_) => 512,
        };
        let old = buffer(&mut generator, output);
        let library = table::library(kind, &text, &old);
        wide += usize::from(library.0.is_ok() && is_wide(kind, &text));
        deep += usize::from(library.0.is_ok() && is_deep(kind, &text));
        large += usize::from(library.0.is_ok_and(|numbers| numbers.0 > 64));
        most += usize::from(library.0.is_ok_and(|numbers| numbers.0 == 256));
        tally.compare(library, table::reference(kind, &text, &old), &old, || format!("seed {seed}: {}", shown(&text)));
    }
    tally.has(of_set_up(kind));
    tally.has(&[0, 4, 5, 6, 7, 8, 23, 9, 10, 13]);
    assert!(wide > 1000 && deep > 200, "{wide} wide, {deep} deep");
    assert!(large > 1000 && most > 200, "{large} of more than 64 states, {most} of 256");
}

#[test]
fn tables() {
    tables_of(Kind::Numbers, 100_000);
}

#[test]
fn register_tables() {
    tables_of(Kind::Register, 100_000);
}

/// Channel files for values of this kind, and sequences of events.
fn replays_of(kind: Kind, count: u64) {
    let mut tally = Tally::default();
    let (mut wide, mut deep, mut far) = (0, 0, 0);
    for seed in seeds(count) {
        let mut generator = Generator::new(seed);
        let (text, events) = if generator.once_in(4) {
            (text(&mut generator, kind), generator.between(1, 16))
        } else {
            let (text, file) = good(&mut generator, kind);
            (text, file.set_up.events())
        };
        let (text, events, often) = match generator.below(20) {
            // An event that a long rule goes far on.
            0 => {
                let set_up = generator.set_up_of(kind);
                let event = generator.below(set_up.events());
                let rule = generator.large_rule(&set_up, event);
                (channel_file::to_text(&set_up, &rule).into_bytes(), set_up.events(), Some(event as u8))
            }
            _ => (text, events, None),
        };
        let length = match often {
            Some(_) => generator.between(200, 600),
            None if generator.once_in(50) => generator.below(20_000),
            None => generator.below(200),
        };
        let mut word: Vec<u8> = (0..length).map(|_| often.unwrap_or_else(|| generator.below(events) as u8)).collect();
        if length > 0 && generator.once_in(6) {
            let at = generator.below(length);
            word[at] = (events + generator.one_of(&[0, 1, 16, 200])) as u8;
        }
        let old = buffer(&mut generator, length * kind.value_bytes());
        let library = replay::library(kind, &text, &word, &old);
        wide += usize::from(library.0.is_ok() && is_wide(kind, &text));
        deep += usize::from(library.0.is_ok() && is_deep(kind, &text));
        far += usize::from(library.0.is_ok() && often.is_some());
        tally.compare(library, replay::reference(kind, &text, &word, &old), &old, || {
            format!("seed {seed}: {} {word:?}", shown(&text))
        });
    }
    tally.has(of_set_up(kind));
    tally.has(&[0, 4, 5, 6, 7, 8, 23, 9, 10, 13, 16]);
    assert!(wide > 1000 && deep > 200 && far > 500, "{wide} wide, {deep} deep, {far} by long rules");
}

#[test]
fn replays() {
    replays_of(Kind::Numbers, 50_000);
}

#[test]
fn register_replays() {
    replays_of(Kind::Register, 50_000);
}

/// A rule in bytes, good or damaged.
fn rule_in_bytes(generator: &mut Generator, set_up: &SetUp) -> Vec<u8> {
    match generator.below(12) {
        0..=4 => generator.damaged_rule(set_up),
        5 if generator.once_in(3) => generator.rule_of_too_many_states(set_up).to_bytes(),
        5 if generator.once_in(2) => {
            let event = generator.below(set_up.events());
            generator.large_rule(set_up, event).to_bytes()
        }
        5 | 6 => generator.rule_of_loops(set_up).to_bytes(),
        _ => generator.rule(set_up).to_bytes(),
    }
}

/// Set-ups and rules of this kind.
fn compiles_of(kind: Kind, count: u64) {
    let mut tally = Tally::default();
    let mut large = 0;
    for seed in seeds(count) {
        let mut generator = Generator::new(seed);
        let set_up = generator.set_up_of(kind);
        let rule = rule_in_bytes(&mut generator, &set_up);
        let raw = if generator.once_in(10) { generator.damaged_set_up_of(kind) } else { set_up.raw().clone() };
        let output = match compile::reference(&raw, &rule, &vec![0; table_bytes(kind)]).0 {
            Ok(states) => states * raw.events * kind.entry_bytes(),
            Err(_) => 512,
        };
        let old = buffer(&mut generator, output);
        let library = compile::library(&raw, &rule, &old);
        large += usize::from(library.0.is_ok_and(|states| states > 64));
        tally.compare(library, compile::reference(&raw, &rule, &old), &old, || format!("seed {seed}: {raw:?} {rule:?}"));
    }
    tally.has(of_set_up(kind));
    tally.has(&[0, 5, 6, 7, 8, 23, 9, 10, 13]);
    assert!(large > 100, "{large} of more than 64 states");
}

#[test]
fn compiles() {
    compiles_of(Kind::Numbers, 30_000);
}

#[test]
fn register_compiles() {
    compiles_of(Kind::Register, 30_000);
}

/// A device: any table, one near the rule's, or a damaged one.
fn device(generator: &mut Generator, set_up: &SetUp, rule: Option<&Table>) -> RawTable {
    match (generator.below(8), rule) {
        (0, _) => generator.damaged_device(set_up),
        (1, _) | (_, None) => generator.device(set_up),
        (_, Some(table)) => generator.device_near(set_up, table),
    }
}

fn word_buffer(generator: &mut Generator) -> Vec<u8> {
    let length = match generator.below(12) {
        0 => WORD_BYTES - 1,
        1 => generator.below(WORD_BYTES),
        2 => WORD_BYTES,
        _ => WORD_BYTES + generator.below(100),
    };
    let first = generator.below(256);
    (0..length).map(|index| (first + 7 * index) as u8).collect()
}

/// After the word's last event the device's value is not at or below the table's, and before it is everywhere.
fn is_counterexample(set_up: &SetUp, (device, start): (&Table, usize), table: &Table, word: &[u8]) -> bool {
    let (ours, theirs) = (device.run(start, word).0, table.run(0, word).0);
    let mut below: Vec<bool> = ours.into_iter().zip(theirs).map(|(b, c)| set_up.at_or_below(b, c)).collect();
    below.pop() == Some(false) && below.iter().all(|&holds| holds)
}

/// How often trials passed as same, passed as stricter and failed.
#[derive(Debug, Default)]
struct Verdicts {
    same: usize,
    stricter: usize,
    fails: usize,
}

impl Verdicts {
    /// Counts what the library said of a device, and holds it against what the reference finds from the other end: the first failing word
    /// by distances (document 02, F-1), and same values by the greatest relation (F-5).
    fn judge(&mut self, set_up: &SetUp, device: &RawTable, table: &Table, outcome: Outcome, word: &[u8]) {
        let typed = device.lent().table(set_up).unwrap();
        let (ours, theirs) = ((&typed, device.start), (table, 0));
        let what = || format!("{set_up:?} {device:?} {table:?}");
        assert_eq!(same_values(set_up, ours, theirs), outcome == Outcome::Passes(Grade::Same), "{}", what());
        let first = first_word(set_up, ours, theirs);
        match outcome {
            Outcome::Passes(_) => assert_eq!(first, None, "{}", what()),
            Outcome::Fails(length) => {
                assert_eq!(first.as_deref(), Some(&word[..length]), "{}", what());
                assert!(is_counterexample(set_up, ours, table, &word[..length]), "{}", what());
            }
        }
        match outcome {
            Outcome::Passes(Grade::Same) => self.same += 1,
            Outcome::Passes(Grade::Stricter) => self.stricter += 1,
            Outcome::Fails(_) => self.fails += 1,
        }
    }

    /// Each arose often enough to mean something.
    fn are_many(&self, many: usize) {
        assert!(self.same > many && self.stricter > many && self.fails > many, "{self:?}");
        println!("{self:?}");
    }
}

/// Channel files and devices for values of this kind; each verdict has to arise so often of tables with more than 64 states.
fn trials_of(kind: Kind, count: u64, of_many_states: usize) {
    let mut tally = Tally::default();
    let mut verdicts = Verdicts::default();
    let mut of_wide = Verdicts::default();
    let mut of_large = Verdicts::default();
    let mut deep = 0;
    for seed in seeds(count) {
        let mut generator = Generator::new(seed);
        let text = match generator.below(16) {
            0..=3 => text(&mut generator, kind),
            4 => large_file(&mut generator, kind),
            _ => generator.file_of(kind),
        };
        let file = channel_file::read_of(kind, &text).ok();
        let of_rule = file.as_ref().and_then(|file| Table::of_rule(&file.set_up, &file.rule).ok());
        let set_up = file.map_or_else(|| generator.set_up_of(kind), |file| file.set_up);
        let device = device(&mut generator, &set_up, of_rule.as_ref());
        let old = word_buffer(&mut generator);
        let library = trial::library(kind, &text, &device, &old);
        deep += usize::from(library.0.is_ok() && is_deep(kind, &text));
        if let (Ok(outcome), Some(table)) = (library.0, &of_rule) {
            let verdicts = if table.states() > 64 {
                &mut of_large
            } else if is_wide(kind, &text) {
                &mut of_wide
            } else {
                &mut verdicts
            };
            verdicts.judge(&set_up, &device, table, outcome, &library.1);
        }
        tally.compare(library, trial::reference(kind, &text, &device, &old), &old, || {
            format!("seed {seed}: {} {device:?}", shown(&text))
        });
    }
    tally.has(of_set_up(kind));
    tally.has(&[0, 4, 5, 6, 7, 8, 23, 9, 10, 11, 13]);
    verdicts.are_many(1000);
    of_wide.are_many(200);
    of_large.are_many(of_many_states);
    assert!(deep > 200, "{deep}");
}

#[test]
fn trials() {
    trials_of(Kind::Numbers, 50_000, 100);
}

#[test]
fn register_trials() {
    trials_of(Kind::Register, 50_000, 5);
}

/// Set-ups, tables and devices of this kind; each verdict has to arise so often of tables with more than 64 states.
fn trials_of_tables_of(kind: Kind, count: u64, of_many_states: usize) {
    let mut tally = Tally::default();
    let mut verdicts = Verdicts::default();
    let mut of_large = Verdicts::default();
    for seed in seeds(count) {
        let mut generator = Generator::new(seed);
        let set_up = generator.set_up_of(kind);
        let table = if generator.once_in(10) { generator.damaged_table(&set_up) } else { generator.table(&set_up) };
        let typed = RawTable { start: 0, ..table.clone() }.lent().table(&set_up).ok();
        let device = device(&mut generator, &set_up, typed.as_ref());
        let raw = if generator.once_in(10) { generator.damaged_set_up_of(kind) } else { set_up.raw().clone() };
        let old = word_buffer(&mut generator);
        let library = trial_table::library(&raw, &table, &device, &old);
        // A damaged set-up may be another good one.
        if let (Ok(outcome), Ok(set_up)) = (library.0, SetUp::new(raw.clone())) {
            let typed = RawTable { start: 0, ..table.clone() }.lent().table(&set_up).unwrap();
            let verdicts = if typed.states() > 64 { &mut of_large } else { &mut verdicts };
            verdicts.judge(&set_up, &device, &typed, outcome, &library.1);
        }
        tally.compare(library, trial_table::reference(&raw, &table, &device, &old), &old, || {
            format!("seed {seed}: {raw:?} {table:?} {device:?}")
        });
    }
    tally.has(of_set_up(kind));
    tally.has(&[0, 11, 13]);
    verdicts.are_many(1000);
    of_large.are_many(of_many_states);
}

#[test]
fn trials_of_tables() {
    trials_of_tables_of(Kind::Numbers, 50_000, 20);
}

#[test]
fn trials_of_register_tables() {
    trials_of_tables_of(Kind::Register, 30_000, 5);
}

/// Document 02, F-14: one rule implies another exactly if its table, as a device, passes.
fn covering_of(kind: Kind, count: u64) {
    let (mut yes, mut no, mut refused, mut no_device, mut longest, mut wide, mut deep) = (0, 0, 0, 0, 0, 0, 0);
    for seed in seeds(count) {
        let mut generator = Generator::new(seed);
        let set_up = generator.set_up_of(kind);
        let (first, second) = generator.pair_of_rules(&set_up);
        let [first, second] = [first, second].map(|rule| channel_file::to_text(&set_up, &rule).into_bytes());
        let answer = covers::library(kind, &first, &second);
        assert_eq!(answer, covers::reference(kind, &first, &second), "seed {seed}: {} {}", shown(&first), shown(&second));
        wide += usize::from(answer.is_ok() && (is_wide(kind, &first) || is_wide(kind, &second)));
        deep += usize::from(answer.is_ok() && (is_deep(kind, &first) || is_deep(kind, &second)));
        match answer {
            Ok(None) => yes += 1,
            Ok(Some(word)) => {
                no += 1;
                longest = longest.max(word.len());
            }
            // The first rule has more states than a device may have (document 02, F-12).
            Err((11, _)) => no_device += 1,
            Err(_) => refused += 1,
        }
    }
    println!("{yes} yes, {no} no, {refused} refused, {no_device} no device, longest {longest}, {wide} with an inner binder, {deep} deep");
    assert!(yes > 5000 && no > 5000 && refused > 200 && no_device > 200 && longest > 20 && wide > 1000 && deep > 200);
}

#[test]
fn covering() {
    covering_of(Kind::Numbers, 30_000);
}

#[test]
fn register_covering() {
    covering_of(Kind::Register, 30_000);
}

/// Document 02, F-14: two rules joined by A have the meet of both values.
#[test]
fn joining() {
    let mut words = 0;
    for seed in seeds(20_000) {
        let mut generator = Generator::new(seed);
        let set_up = generator.any_set_up();
        let kind = set_up.kind();
        let (first, second) = generator.pair_of_rules(&set_up);
        let Ok(both) = Rule::from_bytes(&set_up, &joined(kind, &first.to_bytes(), &second.to_bytes())) else {
            continue;
        };
        let word = generator.word(&set_up, 50);
        let values = |rule: &Rule| {
            let text = channel_file::to_text(&set_up, rule);
            let (answer, to) = replay::library(kind, text.as_bytes(), &word, &vec![0; 50 * kind.value_bytes()]);
            answer.map(|()| to.chunks(kind.value_bytes()).map(|value| kind.value_from(value)).collect::<Vec<Value>>())
        };
        let (Ok(both), Ok(first), Ok(second)) = (values(&both), values(&first), values(&second)) else {
            continue;
        };
        let meets: Vec<Value> = first.into_iter().zip(second).map(|(b, c)| set_up.meet(b, c)).collect();
        assert_eq!(both, meets, "seed {seed}");
        words += 1;
    }
    assert!(words > 10_000, "{words}");
}

/// Set-ups and tables of this kind.
fn rules_of(kind: Kind, count: u64) {
    let mut tally = Tally::default();
    for seed in seeds(count) {
        let mut generator = Generator::new(seed);
        let set_up = generator.set_up_of(kind);
        let of_rule = generator.rule(&set_up);
        let table = match (generator.below(8), Table::of_rule(&set_up, &of_rule)) {
            (0, _) => generator.damaged_table(&set_up),
            (1 | 2, _) => generator.table(&set_up),
            (3, Ok(table)) => RawTable { states: table.states(), start: 0, bytes: table.to_bytes() },
            _ => generator.chain(&set_up),
        };
        let raw = if generator.once_in(10) { generator.damaged_set_up_of(kind) } else { set_up.raw().clone() };
        let nodes = rule::reference(&raw, &table, &vec![0; rule_bytes(kind)]).0.unwrap_or(256);
        let old = buffer(&mut generator, nodes * kind.node_bytes());
        tally.compare(rule::library(&raw, &table, &old), rule::reference(&raw, &table, &old), &old, || {
            format!("seed {seed}: {raw:?} {table:?}")
        });
    }
    tally.has(of_set_up(kind));
    tally.has(&[0, 11, 12, 23, 13]);
}

#[test]
fn rules() {
    rules_of(Kind::Numbers, 50_000);
}

#[test]
fn register_rules() {
    rules_of(Kind::Register, 30_000);
}

/// The rule that was written is a rule whose values are the start's; the library compiles it.
#[test]
fn written_rules_are_rules() {
    let mut deep = 0;
    for seed in seeds(20_000) {
        let mut generator = Generator::new(seed);
        let set_up = generator.any_set_up();
        let kind = set_up.kind();
        let table = generator.chain(&set_up);
        let (Ok(count), bytes) = rule::library(set_up.raw(), &table, &vec![0; rule_bytes(kind)]) else { continue };
        let bytes = &bytes[..kind.node_bytes() * count];
        let rule = Rule::from_bytes(&set_up, bytes).expect("each rule so written is accepted as a rule");
        deep += usize::from(has_most_binders(&rule));
        let (states, mut made) = compile::library(set_up.raw(), bytes, &vec![0; table_bytes(kind)]);
        let states = states.expect("and has one state for each V");
        made.truncate(states * set_up.events() * kind.entry_bytes());
        let of_rule = RawTable { states, start: 0, bytes: made }.lent().table(&set_up).expect("which is a table");
        let word = generator.word(&set_up, 50);
        assert_eq!(of_rule.run(0, &word).0, table.lent().table(&set_up).unwrap().run(table.start, &word).0, "seed {seed}");
    }
    assert!(deep > 500, "{deep}");
}

/// A loop of states on one event, top but for a low one.
fn ring(states: usize, low: usize) -> RawTable {
    ring_of(Kind::Numbers, states, low)
}

/// The same with values of this kind; a register has two lines, the second one of them low.
fn ring_of(kind: Kind, states: usize, low: usize) -> RawTable {
    let (of_low, top) = match kind {
        Kind::Numbers => (1, 3),
        Kind::Register => (of_masks(3, 1), of_masks(3, 3)),
    };
    let entry = |state| Entry { value: if state == low { of_low } else { top }, next: ((state + 1) % states) as u8 };
    RawTable { states, start: 0, bytes: in_bytes(kind, (0..states).map(entry)) }
}

/// Loops that pass: as same, and as stricter by the device's first or last state alone.
#[test]
fn grades_of_loops() {
    let mut tally = Tally::default();
    for one in [RawSetUp::four_values(1), RawSetUp::register(1, 2)] {
        for (low, grade) in [(usize::MAX, Grade::Same), (0, Grade::Stricter), (63, Grade::Stricter)] {
            for others in [1, 63, 64, 65, 255, 256] {
                let (device, table) = (ring_of(one.kind(), 64, low), ring_of(one.kind(), others, usize::MAX));
                let old = vec![170; WORD_BYTES];
                let library = trial_table::library(&one, &table, &device, &old);
                assert_eq!(library.0, Ok(Outcome::Passes(grade)));
                tally.compare(library, trial_table::reference(&one, &table, &device, &old), &old, || {
                    format!("{device:?} {table:?}")
                });
            }
        }
    }
}

/// Two loops on event 0, of these lengths, joined by A.
fn loops(first: usize, second: usize) -> String {
    format!("A V {}X0 V {}X0", "G0 ".repeat(first), "G0 ".repeat(second))
}

/// About twelve binders on a path (document 02, F-9): in a row, in either part of an A, with G nodes between, in rules that other
/// refusals meet; and as many as there may be nodes.
fn deep_rules() -> impl Iterator<Item = String> {
    let around_twelve = [11, 12, 13, 14].into_iter().flat_map(|binders| {
        let (deep, twelve) = (under(binders, "T"), under(12, "T"));
        [
            format!("A T {deep}"),
            format!("A {deep} T"),
            format!("A {twelve} {deep}"),
            format!("A {deep} {twelve}"),
            format!("A {} {}", under(7, "T"), under(binders - 7, "T")),
            under(7, &format!("A {} {}", under(5, "T"), under(binders - 7, "T"))),
            "V G0 ".repeat(binders) + "X0",
            "V G0 ".to_string() + &under(binders - 1, &format!("X{}", binders - 1)),
            "V G0 ".to_string() + &under(binders - 1, &format!("X{}", binders - 2)),
            under(binders, &format!("G0 X{}", binders - 1)),
            under(binders, &format!("G0 X{binders}")),
            under(binders, "X0"),
            format!("A V X0 {deep}"),
            under(binders, "A T"),
            under(binders, "T T"),
            under(binders, "G16 T"),
            under(binders, &("G0 ".repeat(64) + "T")),
            under(binders - 1, &loops(16, 17)),
            deep,
        ]
    });
    let many = [20, 254, 255, 256].into_iter().flat_map(|binders| [under(binders, "T"), under(binders, "X0")]);
    let unbound = [under(254, "G0 X253"), under(254, "G0 X254"), under(255, "X255"), "V G0 ".repeat(127) + "X126"];
    around_twelve.chain(many).chain(unbound)
}

/// A file with these items, of the four-value set or of a register of two lines.
fn file(kind: Kind, items: &str, events: usize) -> Vec<u8> {
    let values = match kind {
        Kind::Numbers => "values=4\ntop=3\nmeet=0 0 0 0 0 1 0 1 0 0 2 2 0 1 2 3",
        Kind::Register => "lines=2",
    };
    format!("events={events}\n{values}\nrule={items}\n").into_bytes()
}

/// Rules about the limits of documents 01 and 02, and the worst cases, in such files.
fn files_about_limits(kind: Kind) -> Vec<Vec<u8>> {
    let steps = |count: usize| format!("{}T", "G0 ".repeat(count));
    let low = match kind {
        Kind::Numbers => "O0.1",
        Kind::Register => "O0.3.0",
    };
    let mut texts: Vec<Vec<u8>> = Vec::new();
    for events in [1, 2, 16] {
        texts.extend([0, 1, 62, 63, 64, 100, 254, 255, 256].map(|count| file(kind, &steps(count), events)));
        // About 256 states: 15 × 17, the empty set, and what is demanded on the first events alone; then 16 × 17.
        for (first, second) in [(15, 16), (15, 17), (16, 17)] {
            let both = loops(first, second);
            texts.extend(
                [both.clone(), format!("A {low} {both}"), format!("A {both} G0 {low}")].map(|items| file(kind, &items, events)),
            );
        }
        texts.extend(deep_rules().map(|items| file(kind, &items, events)));
        texts.push(file(kind, &format!("{}T{}", "A ".repeat(127), " T".repeat(127)), events));
        texts.push(file(kind, &format!("{}T{}", "A T ".repeat(127), ""), events));
        // Loops of prime lengths, whose states are as many as the product of the lengths.
        let primes = [2, 3, 5, 7, 11, 13, 17, 19, 23];
        for count in 1..=primes.len() {
            let loops = |prime: &usize| format!("V {}X0", "G0 ".repeat(*prime));
            let items: Vec<String> = primes[..count].iter().map(loops).collect();
            texts.push(file(kind, &format!("{}{}", "A ".repeat(count - 1), items.join(" ")), events));
        }
        // Each inner binder has its outer one's demands twice or ten times (document 02, F-2); more than eleven are 23.
        for (count, variables) in [(3, 2), (7, 2), (11, 2), (11, 10), (12, 2), (20, 2), (42, 2)] {
            texts.push(file(kind, &inner_binders(count, variables), events));
        }
    }
    texts
}

/// Tables of such files in buffers about the size of one entry, of one state, and of 64 and 256 states.
fn limits_of_files(kind: Kind) {
    let mut tally = Tally::default();
    let entry = kind.entry_bytes();
    let lengths = [1, 64, 256, 512, 16 * 256].map(|entries| entries * entry);
    for text in files_about_limits(kind) {
        for length in lengths.into_iter().flat_map(|length| [length - 1, length]).chain([0, lengths[4] + 100]) {
            let old = vec![170; length];
            let (library, reference) = (table::library(kind, &text, &old), table::reference(kind, &text, &old));
            tally.compare(library, reference, &old, || shown(&text));
        }
    }
    tally.has(&[0, 5, 6, 7, 8, 23, 9, 10, 13]);
}

#[test]
fn limits_of_number_files() {
    limits_of_files(Kind::Numbers);
}

#[test]
fn limits_of_register_files() {
    limits_of_files(Kind::Register);
}

/// The limits of tables and of words.
#[test]
fn limits() {
    let mut tally = Tally::default();
    // One event, a chain of states whose last returns to itself: 49 nodes for 12 states, then 23; 12 for 64.
    let one = RawSetUp::four_values(1);
    let chains = [(1, Ok(5)), (2, Ok(9)), (12, Ok(49)), (13, Err(23)), (62, Err(23)), (63, Err(23)), (64, Err(12))];
    let long_chains = [(65, Err(12)), (255, Err(12)), (256, Err(12)), (257, Err(11)), (512, Err(11))];
    for (states, answer) in chains.into_iter().chain(long_chains) {
        let chain = RawTable::chain(states, 3);
        for length in [0, 3, 145, 146, 147, 148, 756, 757, 758, 759, 768] {
            let old = vec![170; length];
            let library = rule::library(&one, &chain, &old);
            if length == 768 {
                assert_eq!(library.0, answer.map_err(|number| (number, None)), "{states} states");
            }
            tally.compare(library, rule::reference(&one, &chain, &old), &old, || format!("{chain:?}"));
        }
    }
    // From its last states on a chain is short, whatever stands before it.
    for states in [64, 65, 255, 256, 257] {
        for left in [0, 1, 11, 12, 13] {
            let chain = RawTable { start: states - left, ..RawTable::chain(states, 3) };
            let old = vec![170; 768];
            let library = rule::library(&one, &chain, &old);
            let answer = match left {
                _ if states > 256 => Err((11, None)),
                0 => Err((11, None)),
                13 => Err((23, None)),
                left => Ok(4 * left + 1),
            };
            assert_eq!(library.0, answer, "{states} states from {}", chain.start);
            tally.compare(library, rule::reference(&one, &chain, &old), &old, || format!("{chain:?}"));
        }
    }
    // A table of 65 states is no device, one of 257 no table.
    for states in [1, 63, 64, 65, 255, 256, 257, 512] {
        let (small, large) = (ring(1, 0), ring(states, usize::MAX));
        let old = vec![170; WORD_BYTES];
        let text = file(Kind::Numbers, "T", 1);
        let as_device = if states > 64 { Err((11, None)) } else { Ok(Outcome::Passes(Grade::Same)) };
        let as_table = if states > 256 { Err((11, None)) } else { Ok(Outcome::Passes(Grade::Stricter)) };
        let by_text = trial::library(Kind::Numbers, &text, &large, &old);
        let by_tables = trial_table::library(&one, &ring(1, usize::MAX), &large, &old);
        assert_eq!((by_text.0, by_tables.0), (as_device, as_device), "{states} states");
        tally.compare(by_text, trial::reference(Kind::Numbers, &text, &large, &old), &old, || format!("{large:?}"));
        tally.compare(by_tables, trial_table::reference(&one, &ring(1, usize::MAX), &large, &old), &old, || {
            format!("{large:?}")
        });
        let library = trial_table::library(&one, &large, &small, &old);
        assert_eq!(library.0, as_table, "{states} states");
        tally.compare(library, trial_table::reference(&one, &large, &small, &old), &old, || format!("{large:?}"));
    }
    // A device loop of 63 states against a rule loop of 254: the failing word has 63 × 254 events.
    for (device, table) in [(64, 63), (63, 64), (64, 64), (61, 59), (63, 254), (64, 255), (64, 256), (63, 256)] {
        let mut device = ring(device, usize::MAX);
        device.bytes.iter_mut().step_by(2).for_each(|value| *value = 1);
        let last = 2 * (device.states - 1);
        device.bytes[last] = 3;
        let table = ring(table, table - 1);
        for length in [4096, WORD_BYTES - 1, WORD_BYTES, 17_000] {
            let old = vec![170; length];
            let library = trial_table::library(&one, &table, &device, &old);
            match (device.states, table.states) {
                _ if length < WORD_BYTES => assert_eq!(library.0, Err((13, None))),
                (63, 254) => assert_eq!(library.0, Ok(Outcome::Fails(16_002))),
                (64, 255) => assert_eq!(library.0, Ok(Outcome::Fails(16_320))),
                _ => {}
            }
            tally.compare(library, trial_table::reference(&one, &table, &device, &old), &old, || {
                format!("{device:?} {table:?}")
            });
        }
    }
    println!("{:?}", tally.0);
}

/// A register's rule of 65 states, one more than a small table has: devices of up to 65 states, and words of up to 66 events.
#[test]
fn register_file_of_65_states() {
    let mut tally = Tally::default();
    let kind = Kind::Register;
    let text = file(kind, &format!("{}O0.3.1", "G0 ".repeat(63)), 1);
    for states in [1, 64, 65] {
        for low in [usize::MAX, 0, states - 1] {
            let (device, old) = (ring_of(kind, states, low), vec![170; WORD_BYTES]);
            let library = trial::library(kind, &text, &device, &old);
            match (states, low) {
                (65, _) => assert_eq!(library.0, Err((11, None))),
                // The loop is at its last state where the rule wants the second line low.
                _ if low == states - 1 => assert_eq!(library.0, Ok(Outcome::Passes(Grade::Stricter))),
                _ => assert_eq!(library.0, Ok(Outcome::Fails(64))),
            }
            tally.compare(library, trial::reference(kind, &text, &device, &old), &old, || format!("{device:?}"));
        }
    }
    for length in 0..=66 {
        for more in [-1, 0, 1] {
            let (word, old) = (vec![0; length], vec![170; (4 * length as isize + more).max(0) as usize]);
            let library = replay::library(kind, &text, &word, &old);
            if more >= 0 {
                let mut values = [3, 0, 3, 0].repeat(length);
                if length > 63 {
                    values[4 * 63 + 2] = 1;
                }
                assert_eq!(library, (Ok(()), [&values[..], &old[values.len()..]].concat()));
            }
            tally.compare(library, replay::reference(kind, &text, &word, &old), &old, || format!("{length} events"));
        }
    }
    tally.has(&[0, 13]);
}

/// Each bit of a register's masks with its number, and all bits of one or both masks with that of one of them.
fn masks() -> impl Iterator<Item = (usize, Value)> {
    let all = [(15, Value::MAX), (15, of_masks(u16::MAX, 0)), (31, of_masks(0, u16::MAX))];
    (0..32).map(|bit| (bit, 1 << bit)).chain(all)
}

/// The answer where the number of lines is one that a register may have, and 20 otherwise.
fn beside_20<T>(lines: usize, answer: Result<T, (u8, Option<usize>)>) -> Result<T, (u8, Option<usize>)> {
    match lines {
        1..=16 => answer,
        _ => Err((20, None)),
    }
}

/// Document 02, F-7: "A mask bit at or above the line count is refusal 6 in a rule", and so is one in a node that has no value.
#[test]
fn bits_in_nodes() {
    let mut tally = Tally::default();
    let nodes = [Node::True, Node::Variable(0), Node::After(0), Node::Output(0, 0), Node::Both, Node::Greatest];
    for lines in 0..=18 {
        let raw = RawSetUp::register(1, lines);
        for ((bit, value), node) in masks().flat_map(|mask| nodes.map(|node| (mask, node))) {
            let mut bytes = node.to_bytes(Kind::Register);
            bytes[2..].copy_from_slice(&Kind::Register.value_to_bytes(value));
            let is_value = matches!(node, Node::Output(..)) && bit % 16 < lines;
            let expected = if is_value { Ok(2) } else { Err((6, Some(0))) };
            // The table has two entries.
            for length in [0, 9, 10, 11] {
                let old = vec![170; length];
                let library = compile::library(&raw, &bytes, &old);
                if length >= 10 {
                    assert_eq!(library.0, beside_20(lines, expected), "{lines} lines, {value:#x} in {node:?}");
                }
                tally.compare(library, compile::reference(&raw, &bytes, &old), &old, || format!("{raw:?} {bytes:?}"));
            }
        }
    }
    tally.has(&[0, 20, 6, 13]);
}

/// Document 02, F-7: "and 11 in a table", of a rule, of a device, and of a written rule.
#[test]
fn bits_in_tables() {
    let mut tally = Tally::default();
    let conflict = RawTable { states: 1, start: 0, bytes: vec![0; 5] };
    for lines in 0..=18 {
        let raw = RawSetUp::register(1, lines);
        for (bit, value) in masks() {
            let table = RawTable::chain_of(Kind::Register, 1, value);
            // The rule has five nodes.
            for length in [0, 29, 30, 31] {
                let old = vec![170; length];
                let library = rule::library(&raw, &table, &old);
                if length >= 30 {
                    let expected = if bit % 16 < lines { Ok(5) } else { Err((11, None)) };
                    assert_eq!(library.0, beside_20(lines, expected), "{lines} lines, {value:#x}");
                }
                tally.compare(library, rule::reference(&raw, &table, &old), &old, || format!("{raw:?} {table:?}"));
            }
            for (device, table) in [(&table, &conflict), (&conflict, &table), (&table, &table)] {
                for length in [WORD_BYTES - 1, WORD_BYTES] {
                    let old = vec![170; length];
                    let library = trial_table::library(&raw, table, device, &old);
                    tally.compare(library, trial_table::reference(&raw, table, device, &old), &old, || {
                        format!("{raw:?} {device:?} {table:?}")
                    });
                }
            }
        }
    }
    tally.has(&[0, 20, 11, 13]);
}

/// The same of O tokens, and of masks of no 16 bits: the file's table, its first value, and itself as its device.
#[test]
fn bits_in_files() {
    let mut tally = Tally::default();
    let kind = Kind::Register;
    let bits = masks().map(|(bit, value)| {
        let (low, high) = masks_of(value);
        (bit % 16, u32::from(low), u32::from(high))
    });
    let large = [65_536, 65_537, 98_304, 99_999].into_iter().flat_map(|mask| [(16, mask, 0), (16, 0, mask), (16, mask, mask)]);
    let tokens: Vec<(usize, u32, u32)> = bits.chain(large).collect();
    for lines in 0..=18 {
        for &(bit, low, high) in &tokens {
            let text = format!("events=1\nlines={lines}\nrule=O0.{low}.{high}\n").into_bytes();
            let expected = if bit < lines && bit < 16 { Ok((2, 1, lines, None)) } else { Err((6, Some(0))) };
            // The table has two entries.
            for length in [0, 9, 10, 11] {
                let old = vec![170; length];
                let library = table::library(kind, &text, &old);
                if length >= 10 {
                    assert_eq!(library.0, beside_20(lines, expected), "{}", shown(&text));
                }
                tally.compare(library, table::reference(kind, &text, &old), &old, || shown(&text));
            }
            for length in [0, 3, 4, 5] {
                let old = vec![170; length];
                let library = replay::library(kind, &text, &[0], &old);
                if library.0.is_ok() {
                    assert_eq!(library.1[..4], kind.value_to_bytes(of_masks(low as u16, high as u16)), "{}", shown(&text));
                }
                tally.compare(library, replay::reference(kind, &text, &[0], &old), &old, || shown(&text));
            }
            let (_, bytes) = table::library(kind, &text, &[0; 10]);
            let device = RawTable { states: 2, start: 0, bytes };
            for length in [WORD_BYTES - 1, WORD_BYTES] {
                let old = vec![170; length];
                let library = trial::library(kind, &text, &device, &old);
                tally.compare(library, trial::reference(kind, &text, &device, &old), &old, || shown(&text));
            }
        }
    }
    tally.has(&[0, 20, 6, 13]);
}

/// Lengths about those of whole nodes and entries of a register, all bytes 0: T, and tables in conflict.
#[test]
fn lengths_about_whole_nodes() {
    let mut tally = Tally::default();
    let lengths = |each: usize| [0, 1, 2, 64, 255, 256, 257].into_iter().flat_map(move |n| each * n..each * (n + 1));
    for events in 1..=3 {
        let raw = RawSetUp::register(events, 3);
        for length in lengths(6) {
            let (rule, old) = (vec![0; length], vec![170; 5 * events]);
            tally.compare(compile::library(&raw, &rule, &old), compile::reference(&raw, &rule, &old), &old, || {
                format!("{raw:?} {length} bytes")
            });
        }
        for length in lengths(5 * events) {
            for states in [length / (5 * events), length / (5 * events) + 1] {
                let (table, old) = (RawTable { states, start: 0, bytes: vec![0; length] }, vec![170; WORD_BYTES]);
                let what = || format!("{raw:?} {states} states, {length} bytes");
                tally.compare(rule::library(&raw, &table, &old), rule::reference(&raw, &table, &old), &old, what);
                let library = trial_table::library(&raw, &table, &table, &old);
                tally.compare(library, trial_table::reference(&raw, &table, &table, &old), &old, what);
            }
        }
    }
    tally.has(&[0, 5, 11]);
}

/// 1 before 20, and numbers that wrap to good ones.
#[test]
fn numbers_of_registers() {
    let mut tally = Tally::default();
    let numbers = [0, 1, 16, 17, 255, 256, 257, 65_536, 65_537, 1 << 32, (1 << 32) + 1, usize::MAX - 1, usize::MAX];
    let table = RawTable { states: 1, start: 0, bytes: vec![0; 5] };
    let (rule, old) = (Node::True.to_bytes(Kind::Register), vec![170; WORD_BYTES]);
    for (events, lines) in numbers.into_iter().flat_map(|events| numbers.map(|lines| (events, lines))) {
        let raw = RawSetUp::register(events, lines);
        let what = || format!("{raw:?}");
        tally.compare(compile::library(&raw, &rule, &old), compile::reference(&raw, &rule, &old), &old, what);
        tally.compare(rule::library(&raw, &table, &old), rule::reference(&raw, &table, &old), &old, what);
        let library = trial_table::library(&raw, &table, &table, &old);
        tally.compare(library, trial_table::reference(&raw, &table, &table, &old), &old, what);
    }
    tally.has(&[1, 20]);
}
