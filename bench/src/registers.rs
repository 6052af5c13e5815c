//! Registers beside the four-value set (document 02, F-7): the same rules and tables in both kinds of values, a register's sixteen
//! lines all showing the value of the four.

use std::hint::black_box;

use gurvazze::WORD_BYTES;
use gurvazze_reference::formula::{Node, Rule, MAX_NODES};
use gurvazze_reference::generate::{Generator, RawTable};
use gurvazze_reference::table::{self, MAX_STATES};
use gurvazze_reference::trial::{self, Outcome};
use gurvazze_reference::values::{Kind, RawValues, SetUp, Value};
use gurvazze_reference::{channel_file, characteristic, Refusal};

use crate::rules::{branching, bytes_of, chain, four, full_states, full_states_of_events, joined, lines, loop_table};
use crate::rules::{ring_with, shown, wide_rule};
use crate::timing::{Call, Report};
use crate::{in_library_words, in_reference_words, lent, library_trial_of_table, plain, raw, said};

/// The rows of the table of a rule, of calls on a file, of a trial and of the rule of a table.
pub fn registers(report: &mut Report) {
    tables(report);
    files(report);
    replays(report);
    trials(report);
    rules(report);
}

/// One call on both kinds of values, by the library and by Rust: `call` holds the two against each other and says what they answer.
fn line<L, R>(report: &mut Report, case: &str, events: usize, call: impl Fn(SetUp) -> (String, L, R))
where
    L: FnMut(),
    R: FnMut(),
{
    let (answer, mut library, mut rust) = call(four(events));
    let (other_answer, mut of_lines, mut rust_of_lines) = call(lines(events));
    assert_eq!(answer, other_answer);
    let cases = ["4 values", "16 lines"].map(|values| format!("{case}, {events} events, {answer}, {values}"));
    let calls: [[Call<'_>; 2]; 2] = [[&mut library, &mut rust], [&mut of_lines, &mut rust_of_lines]];
    report.compare_forms(cases.each_ref().map(String::as_str), calls);
}

fn library_compile(set_up: &SetUp, rule: &[u8], to: &mut [u8]) -> Result<usize, Refusal> {
    let states = match register(set_up) {
        None => gurvazze::compile(raw(set_up), rule, to),
        Some(register) => gurvazze::register_compile(register, rule, to),
    };
    states.map_err(in_reference_words)
}

fn line_table(report: &mut Report, case: &str, events: usize, nodes: &[Node]) {
    line(report, case, events, |set_up| {
        let rule = bytes_of(&set_up, nodes);
        let mut to = vec![0; MAX_STATES * events * set_up.kind().entry_bytes()];
        let mut other = to.clone();
        let states = table::compile(set_up.raw(), &rule, &mut other);
        assert_eq!(states, library_compile(&set_up, &rule, &mut to));
        assert!(to == other);
        let same = (set_up.clone(), rule.clone());
        (
            said(states, "states"),
            move || {
                let _ = black_box(library_compile(black_box(&set_up), black_box(&rule), black_box(&mut to)));
            },
            move || {
                let _ = black_box(table::compile(black_box(same.0.raw()), black_box(&same.1), black_box(&mut other)));
            },
        )
    });
}

fn tables(report: &mut Report) {
    report.section("table of a rule in bytes; for 16 lines the columns of fast are of 4 values");
    for events in [2, 16] {
        let set_up = four(events);
        for size in [16, 128, 256] {
            line_table(report, &format!("{size} nodes"), events, &wide_rule(&set_up, size));
        }
        for states in [3, 31, 63] {
            line_table(report, &format!("loop of {states} with O"), events, &ring_with_outputs(states));
        }
        let loops = joined(&[ring_with_outputs(15), ring_with_outputs(16)]);
        line_table(report, "loops of 15 and 16 with O", events, &loops);
        line_table(report, "chain of 255 G", events, &chain(255, events));
    }
    line_table(report, "246 nodes, 93 a state", 1, &full_states());
    line_table(report, "246 nodes, 55 a state", 16, &full_states_of_events());
}

/// A loop of so many states on event 0, with an O node in each.
fn ring_with_outputs(states: usize) -> Vec<Node> {
    ring_with(0, states, |state| vec![Node::Both, Node::Output(0, 1 + state as Value % 2)])
}

/// The rule in this set-up's values, as a channel file.
fn file_of(set_up: &SetUp, nodes: &[Node]) -> Vec<u8> {
    let rule = Rule::from_bytes(set_up, &bytes_of(set_up, nodes)).expect("accepted");
    channel_file::to_text(set_up, &rule).into_bytes()
}

fn library_table(kind: Kind, text: &[u8], to: &mut [u8]) -> Result<usize, Refusal> {
    let states = match kind {
        Kind::Numbers => gurvazze::table(text, to).map(|numbers| numbers.states),
        Kind::Register => gurvazze::register_table(text, to).map(|numbers| numbers.states),
    };
    states.map_err(in_reference_words)
}

fn line_file(report: &mut Report, case: &str, events: usize, nodes: &[Node]) {
    line(report, case, events, |set_up| {
        let (kind, text) = (set_up.kind(), file_of(&set_up, nodes));
        let mut to = vec![0; MAX_STATES * events * kind.entry_bytes()];
        let mut other = to.clone();
        let states = plain::table_of(kind, &text, &mut other);
        assert_eq!(states, library_table(kind, &text, &mut to));
        assert!(to == other);
        let same = text.clone();
        (
            said(states, "states"),
            move || {
                let _ = black_box(library_table(black_box(kind), black_box(&text), black_box(&mut to)));
            },
            move || {
                let _ = black_box(plain::table_of(black_box(kind), black_box(&same), black_box(&mut other)));
            },
        )
    });
}

fn files(report: &mut Report) {
    report.section("table of a channel file; for 16 lines the columns of fast are of 4 values");
    for size in [16, 128, 256] {
        line_file(report, &format!("file of {size} nodes"), 2, &wide_rule(&four(2), size));
    }
    for states in [3, 63] {
        line_file(report, &format!("file of a loop of {states} with O"), 2, &ring_with_outputs(states));
    }
}

fn library_replay(kind: Kind, text: &[u8], word: &[u8], to: &mut [u8]) -> Result<(), Refusal> {
    let replayed = match kind {
        Kind::Numbers => gurvazze::replay(text, word, to),
        Kind::Register => gurvazze::register_replay(text, word, to),
    };
    replayed.map_err(in_reference_words)
}

fn plain_replay(kind: Kind, text: &[u8], word: &[u8], to: &mut [u8]) -> Result<(), Refusal> {
    match kind {
        Kind::Numbers => plain::replay(text, word, to),
        Kind::Register => plain::replay_of(kind, text, word, to, Value::to_le_bytes),
    }
}

fn replays(report: &mut Report) {
    report.section("replay of a channel file; for 16 lines the columns of fast are of 4 values");
    for length in [0, 1000, 1_000_000] {
        line(report, &format!("replay of {length}, loop of 31 with O"), 2, |set_up| {
            let (kind, text) = (set_up.kind(), file_of(&set_up, &ring_with_outputs(31)));
            let word = Generator::new(1).word(&set_up, length);
            let mut to = vec![0; length * kind.value_bytes()];
            let mut other = to.clone();
            assert_eq!(plain_replay(kind, &text, &word, &mut other), Ok(()));
            assert_eq!(library_replay(kind, &text, &word, &mut to), Ok(()));
            assert!(to == other);
            let same = (text.clone(), word.clone());
            (
                "accepted".to_string(),
                move || {
                    let _ = black_box(library_replay(black_box(kind), black_box(&text), black_box(&word), black_box(&mut to)));
                },
                move || {
                    let _ =
                        black_box(plain_replay(black_box(kind), black_box(&same.0), black_box(&same.1), black_box(&mut other)));
                },
            )
        });
    }
}

fn library_trial(
    set_up: &SetUp,
    table: &RawTable,
    device: &RawTable,
    word: &mut [u8],
) -> Result<gurvazze::Verdict, gurvazze::Refusal> {
    match register(set_up) {
        None => library_trial_of_table(set_up, table, device, word),
        Some(register) => gurvazze::register_trial_of_table(register, table.states, &table.bytes, lent(device), word),
    }
}

/// A loop of so many states of a device against one of so many of a table, with the values by state of each.
fn line_trial(
    report: &mut Report,
    events: usize,
    (device_states, device_value): (usize, impl Fn(usize) -> Value),
    (states, value): (usize, impl Fn(usize) -> Value),
) {
    line(report, &format!("{device_states} states against {states}"), events, |set_up| {
        let device = loop_table(&set_up, device_states, |state| shown(&set_up, device_value(state)));
        let table = loop_table(&set_up, states, |state| shown(&set_up, value(state)));
        let [mut word, mut other] = [[0; WORD_BYTES]; 2];
        let outcome = trial::trial_of_table(set_up.raw(), device.lent(), states, &table.bytes, &mut other);
        let outcome = outcome.expect("accepted");
        assert_eq!(library_trial(&set_up, &table, &device, &mut word), Ok(in_library_words(outcome)));
        assert!(word == other);
        let answer = match outcome {
            Outcome::Passes(_) => "passes".to_string(),
            Outcome::Fails(length) => format!("word of {length}"),
        };
        let same = (set_up.clone(), table.clone(), device.clone());
        (
            answer,
            move || {
                let (set_up, table, device) = (black_box(&set_up), black_box(&table), black_box(&device));
                let _ = black_box(library_trial(set_up, table, device, black_box(&mut word)));
            },
            move || {
                let (set_up, table, device) = black_box((&same.0, &same.1, &same.2));
                let _ = black_box(plain::trial_of_table(set_up, table, device, black_box(&mut other)));
            },
        )
    });
}

fn trials(report: &mut Report) {
    report.section("trial of a device against a table; for 16 lines the columns of fast are of 4 values");
    for events in [2, 16] {
        for (device, table) in [(1, 1), (3, 3), (16, 15), (64, 63), (64, 254)] {
            line_trial(report, events, (device, |_| 1), (table, |_| 3));
        }
    }
    let low_but_at = |last: usize| move |state: usize| if state == last { 3 } else { 1 };
    let open_but_at = |last: usize| move |state: usize| if state == last { 1 } else { 3 };
    line_trial(report, 1, (64, low_but_at(63)), (63, open_but_at(62)));
    line_trial(report, 1, (63, low_but_at(62)), (254, open_but_at(253)));
}

fn library_rule(set_up: &SetUp, table: &RawTable, to: &mut [u8]) -> Result<usize, Refusal> {
    let nodes = match register(set_up) {
        None => gurvazze::rule(raw(set_up), lent(table), to),
        Some(register) => gurvazze::register_rule(register, lent(table), to),
    };
    nodes.map_err(in_reference_words)
}

fn line_rule(report: &mut Report, case: &str, events: usize, table: impl Fn(&SetUp) -> RawTable) {
    line(report, case, events, |set_up| {
        let table = table(&set_up);
        let mut to = vec![0; MAX_NODES * set_up.kind().node_bytes()];
        let mut other = to.clone();
        let nodes = characteristic::write_rule(set_up.raw(), table.lent(), &mut other);
        assert_eq!(nodes, library_rule(&set_up, &table, &mut to));
        assert!(to == other);
        let same = (set_up.clone(), table.clone());
        (
            said(nodes, "nodes"),
            move || {
                let _ = black_box(library_rule(black_box(&set_up), black_box(&table), black_box(&mut to)));
            },
            move || {
                let (set_up, table) = black_box((&same.0, &same.1));
                let _ = black_box(characteristic::write_rule(set_up.raw(), table.lent(), black_box(&mut other)));
            },
        )
    });
}

fn rules(report: &mut Report) {
    report.section("rule of a table; for 16 lines the columns of fast are of 4 values");
    let mut loop_of = |states: usize, events: usize| {
        let table = |set_up: &SetUp| loop_table(set_up, states, |state| shown(set_up, 1 + state as Value % 2));
        line_rule(report, &format!("loop of {states}"), events, table);
    };
    loop_of(1, 2);
    loop_of(1, 16);
    loop_of(12, 2);
    loop_of(12, 4);
    loop_of(256, 2);
    loop_of(256, 16);
    line_rule(report, "6 states, branching", 2, |set_up| branching(set_up, 6));
}

/// The register of a set-up, where it is one.
fn register(set_up: &SetUp) -> Option<gurvazze::Register> {
    match set_up.raw().values {
        RawValues::Numbers(_) => None,
        RawValues::Register { lines } => Some(gurvazze::Register { events: set_up.events(), lines }),
    }
}
