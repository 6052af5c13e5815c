//! Times the proved library beside plain Rust on the same inputs, in one run, and prints ratios. The table of a file is
//! timed beside a version written for speed too. With an argument only the rows are run whose names have it in them.

mod agreement;
mod calls;
mod fast;
mod inside;
mod plain;
mod registers;
mod rules;
mod timing;

use std::hint::black_box;

use gurvazze::{RULE_BYTES, TABLE_BYTES, WORD_BYTES};
use gurvazze_reference::formula::Node;
use gurvazze_reference::generate::{inner_binders, under, Generator, RawTable};
use gurvazze_reference::table::{Entry, Table};
use gurvazze_reference::trial::{trial_of_rule, trial_of_table, Grade, Outcome};
use gurvazze_reference::values::{RawNumbers, SetUp};
use gurvazze_reference::{channel_file, characteristic, Refusal};

use rules::{branching, chain, file, file_of_tokens, four, loop_table, nested, ring, side_by_side, sixteen, wide_rule};
use rules::{full_states, full_states_of_events, joined, numbers, table_of, thin_states};
use timing::Report;

fn main() {
    agreement::check(plain::table, fast::table, 2_000);
    let mut report = Report::new(std::env::args().nth(1).unwrap_or_default());
    reading(&mut report);
    tables(&mut report);
    gathered_inside(&mut report);
    replays(&mut report);
    trials(&mut report);
    rules_of_tables(&mut report);
    registers::registers(&mut report);
    worst(&mut report);
    calls::calls(&mut report);
}

/// The library's refusal in the reference's words.
fn in_reference_words(refusal: gurvazze::Refusal) -> Refusal {
    Refusal { number: refusal.number, place: refusal.place }
}

fn library_table(text: &[u8], to: &mut [u8]) -> Result<usize, Refusal> {
    gurvazze::table(text, to).map(|made| made.states).map_err(in_reference_words)
}

fn said(answer: Result<usize, Refusal>, counted: &str) -> String {
    answer.map_or_else(|refusal| format!("refused={refusal}"), |count| format!("{count} {counted}"))
}

/// Reading alone: a file that all refuse with the same number, at the same place.
fn line_reading(report: &mut Report, case: &str, text: &[u8], number: u8) {
    if !report.wants(case) {
        return;
    }
    let [mut to, mut other] = [[0; TABLE_BYTES]; 2];
    let refusal = library_table(text, &mut to).map(|_| ());
    assert_eq!(refusal.map_err(|refusal| refusal.number), Err(number));
    assert_eq!(refusal, channel_file::read(text).map(|_| ()));
    assert_eq!(refusal, fast::table(text, &mut other).map(|_| ()));
    report.compare_fast(
        case,
        || gurvazze::table(black_box(text), black_box(&mut to)),
        || channel_file::read(black_box(text)),
        || fast::table(black_box(text), black_box(&mut other)),
    );
}

fn reading(report: &mut Report) {
    report.section("reading alone: a file that 9 refuses at its last node");
    let mut line = |case: &str, set_up: &SetUp, size: usize| {
        let mut text = file(set_up, &wide_rule(set_up, size));
        // A V X0 in the place of the last item.
        let end = text.iter().rposition(|&byte| byte == b' ').expect("there are items") + 1;
        text.truncate(end);
        text.extend_from_slice(b"V X0\n");
        line_reading(report, case, &text, 9);
    };
    for size in [16, 64, 250] {
        line(&format!("file of {size} nodes, 4 values"), &four(2), size);
    }
    line("file of 250 nodes, 16 values", &sixteen(16), 250);
    let damaged = file_of_tokens(four(2).raw(), b"A O1.1 V G1 X0!");
    line_reading(report, "file that 4 refuses", &damaged, 4);
    let deep = file_of_tokens(four(2).raw(), under(255, "T").as_bytes());
    line_reading(report, "file that 23 refuses, 255 nested V", &deep, 23);
}

/// The table of a file, which all accept, or refuse with the number that the case names.
fn line_table(report: &mut Report, case: &str, text: &[u8], expected: Result<(), u8>) {
    let [mut to, mut other, mut third] = [[0; TABLE_BYTES]; 3];
    let states = plain::table(text, &mut other);
    assert_eq!(states.map(|_| ()).map_err(|refusal| refusal.number), expected);
    let case = format!("{case}, {}", said(states, "states"));
    if !report.wants(&case) {
        return;
    }
    assert_eq!(states, library_table(text, &mut to));
    assert_eq!(states, fast::table(text, &mut third));
    assert!(to == other && third == other);
    report.compare_fast(
        &case,
        || gurvazze::table(black_box(text), black_box(&mut to)),
        || plain::table(black_box(text), black_box(&mut other)),
        || fast::table(black_box(text), black_box(&mut third)),
    );
}

fn tables(report: &mut Report) {
    report.section("table of a channel file");
    let mut line = |case: String, text: &[u8]| line_table(report, &case, text, Ok(()));
    for size in [16, 32, 64, 128, 256] {
        let set_up = four(2);
        line(format!("{size} nodes, 2 events"), &file(&set_up, &wide_rule(&set_up, size)));
    }
    for states in [1, 2, 3, 4, 8, 16, 32, 64, 128, 250] {
        let set_up = four(1);
        line(format!("loop of {states}, 1 event"), &file(&set_up, &ring(states)));
    }
    for events in [1, 2, 16] {
        let nodes = joined(&[ring(15), ring(16)]);
        line(format!("loops of 15 and 16, {events} events"), &file(&four(events), &nodes));
    }
    for events in [2, 16] {
        line(format!("chain of 255 G, {events} events"), &file(&four(events), &chain(255, events)));
    }
    for (count, variables) in [(3, 2), (7, 2), (11, 2), (11, 10)] {
        let text = file_of_tokens(four(1).raw(), inner_binders(count, variables).as_bytes());
        line(format!("{count} inner binders, {variables} X1 each"), &text);
    }
    for events in [1, 2, 4, 8, 16] {
        let set_up = four(events);
        line(format!("loop of 31, {events} events"), &file(&set_up, &ring(31)));
    }
    for events in [1, 2, 4, 8, 16] {
        let set_up = four(events);
        line(format!("128 nodes, {events} events"), &file(&set_up, &wide_rule(&set_up, 128)));
    }
    for (events, nodes) in [(1, thin_states()), (1, full_states()), (16, full_states_of_events())] {
        let text = file(&four(events), &nodes);
        let (states, members) = fast::sizes(&text).expect("accepted");
        let each = members as f64 / states as f64;
        line(format!("{} nodes, {events} events, {each:.0} a state", nodes.len()), &text);
    }
    for size in [16, 64, 250] {
        let set_up = sixteen(2);
        line(format!("{size} nodes, 2 events, 16 values"), &file(&set_up, &wide_rule(&set_up, size)));
    }
    let set_up = sixteen(16);
    line("128 nodes, 16 events, 16 values".to_string(), &file(&set_up, &wide_rule(&set_up, 128)));
}

/// Demands gathered before the walk over states, beside Rust that gathers them inside it.
fn gathered_inside(report: &mut Report) {
    report.section("table of a channel file, beside demands gathered inside the walk");
    let mut line = |case: &str, text: &[u8]| {
        let [mut to, mut other] = [[0; TABLE_BYTES]; 2];
        let states = inside::table(text, &mut other);
        let case = format!("inside: {case}, {}", said(states, "states"));
        assert_eq!(states, library_table(text, &mut to));
        assert!(to == other);
        report.compare(
            &case,
            || gurvazze::table(black_box(text), black_box(&mut to)),
            || inside::table(black_box(text), black_box(&mut other)),
        );
    };
    let set_up = four(2);
    line("256 nodes in a row of A", &file(&set_up, &wide_rule(&set_up, 256)));
    let set_up = four(1);
    let binders = nested(Node::Greatest, 12);
    line("12 nested V", &file(&set_up, &binders));
    line("18 times 12 nested V", &file(&set_up, &side_by_side(&binders, 18)));
    for count in [3, 7, 11] {
        let text = file_of_tokens(set_up.raw(), inner_binders(count, 2).as_bytes());
        line(&format!("{count} inner binders, 2 X1 each"), &text);
    }
    line("246 nodes, 93 a state", &file(&set_up, &full_states()));
}

fn replays(report: &mut Report) {
    report.section("replay of a million events, beside a loop without checks");
    for (events, states) in [(2, 3), (2, 31), (4, 31), (16, 31)] {
        let set_up = four(events);
        let nodes = if states == 3 {
            vec![Node::Both, Node::Output(1, 1), Node::Greatest, Node::After(1), Node::Variable(0)]
        } else {
            ring(states)
        };
        let text = file(&set_up, &nodes);
        let read = channel_file::read(&text).expect("accepted");
        let table = Table::of_rule(&read.set_up, &read.rule).expect("accepted");
        let case = format!("{events} events, {} states", table.states());
        if !report.wants(&case) {
            continue;
        }
        let word = Generator::new(1).word(&set_up, 1_000_000);
        let mut to = vec![0; word.len()];
        let mut other = vec![0; word.len()];
        gurvazze::replay(&text, &word, &mut to).expect("accepted");
        // SAFETY: the events are the set-up's, and the buffer has their length.
        unsafe { plain::unchecked_loop(table.entries(), events, &word, &mut other) };
        assert!(to == other);
        report.compare(
            &case,
            || gurvazze::replay(black_box(&text), black_box(&word), black_box(&mut to)),
            || {
                let (table, word, other) = (black_box(table.entries()), black_box(&word), black_box(&mut other));
                // SAFETY: as above.
                unsafe { plain::unchecked_loop(table, black_box(events), word, other) }
            },
        );
    }
    report.section("replay of few events, beside the same checks in Rust");
    for length in [0, 1, 10, 100, 1000] {
        let case = format!("{length} events");
        if !report.wants(&case) {
            continue;
        }
        let set_up = four(2);
        let text = file(&set_up, &ring(8));
        let word = Generator::new(1).word(&set_up, length);
        let mut to = vec![0; word.len()];
        let mut other = vec![0; word.len()];
        gurvazze::replay(&text, &word, &mut to).expect("accepted");
        plain::replay(&text, &word, &mut other).expect("accepted");
        assert!(to == other);
        report.compare(
            &case,
            || gurvazze::replay(black_box(&text), black_box(&word), black_box(&mut to)),
            || plain::replay(black_box(&text), black_box(&word), black_box(&mut other)),
        );
    }
}

fn lent(table: &RawTable) -> gurvazze::Table<'_> {
    gurvazze::Table { states: table.states, start: table.start, bytes: &table.bytes }
}

fn raw(set_up: &SetUp) -> gurvazze::SetUp<'_> {
    let RawNumbers { values, top, meet } = numbers(set_up.raw());
    gurvazze::SetUp { events: set_up.events(), values: *values, top: *top, meet }
}

fn library_trial_of_table(
    set_up: &SetUp,
    table: &RawTable,
    device: &RawTable,
    word: &mut [u8],
) -> Result<gurvazze::Verdict, gurvazze::Refusal> {
    gurvazze::trial_of_table(raw(set_up), table.states, &table.bytes, lent(device), word)
}

fn line_trial(report: &mut Report, case: &str, set_up: &SetUp, table: &RawTable, device: &RawTable) {
    let [mut word, mut other] = [[0; WORD_BYTES]; 2];
    let outcome = trial_of_table(set_up.raw(), device.lent(), table.states, &table.bytes, &mut other);
    let outcome = outcome.expect("accepted");
    let case = match outcome {
        Outcome::Passes(_) => format!("{case}, passes"),
        Outcome::Fails(length) => format!("{case}, word of {length}"),
    };
    if !report.wants(&case) {
        return;
    }
    let verdict = library_trial_of_table(set_up, table, device, &mut word).expect("accepted");
    assert_eq!(verdict, in_library_words(outcome));
    assert!(word == other);
    report.compare(
        &case,
        || library_trial_of_table(black_box(set_up), black_box(table), black_box(device), black_box(&mut word)),
        || plain::trial_of_table(black_box(set_up), black_box(table), black_box(device), black_box(&mut other)),
    );
}

fn in_library_words(outcome: Outcome) -> gurvazze::Verdict {
    match outcome {
        Outcome::Passes(Grade::Same) => gurvazze::Verdict::Pass(gurvazze::Grade::Same),
        Outcome::Passes(Grade::Stricter) => gurvazze::Verdict::Pass(gurvazze::Grade::Stricter),
        Outcome::Fails(length) => gurvazze::Verdict::Fail(length),
    }
}

fn trials(report: &mut Report) {
    report.section("trial of a device against a table");
    for states in [1, 3, 4, 16, 64] {
        let set_up = four(2);
        let table = loop_table(&set_up, states, |_| 3);
        line_trial(report, &format!("{states} states against {states}, 2 events"), &set_up, &table, &table);
    }
    for events in [1, 2, 16] {
        let set_up = four(events);
        let (device, table) = (loop_table(&set_up, 64, |_| 1), loop_table(&set_up, 254, |_| 3));
        line_trial(report, &format!("64 states against 254, {events} events"), &set_up, &table, &device);
    }
    for events in [1, 2, 4, 8, 16] {
        let set_up = four(events);
        let (device, table) = (loop_table(&set_up, 16, |_| 1), loop_table(&set_up, 15, |_| 3));
        line_trial(report, &format!("16 states against 15, {events} events"), &set_up, &table, &device);
    }
    report.section("trial of a device against a channel file, which each side reads once");
    for states in [1, 8, 31] {
        let case = format!("{states} states against a file");
        if !report.wants(&case) {
            continue;
        }
        let set_up = four(2);
        let text = file(&set_up, &ring(states));
        let device = loop_table(&set_up, states, |_| 1);
        let [mut word, mut other] = [[0; WORD_BYTES]; 2];
        let rule = channel_file::read(&text).expect("accepted").rule.to_bytes();
        let outcome = trial_of_rule(set_up.raw(), device.lent(), &rule, &mut other).expect("accepted");
        let verdict = gurvazze::trial(&text, lent(&device), &mut word).expect("accepted");
        assert_eq!(verdict, in_library_words(outcome));
        assert!(word == other);
        report.compare(
            &case,
            || gurvazze::trial(black_box(&text), lent(black_box(&device)), black_box(&mut word)),
            || plain::trial(black_box(&text), black_box(&device), black_box(&mut other)),
        );
    }
}

/// The rule of a table, which both write, or refuse with the number that the case names.
fn line_rule(report: &mut Report, case: &str, set_up: &SetUp, table: &RawTable, expected: Result<(), u8>) {
    let [mut to, mut other] = [[0; RULE_BYTES]; 2];
    let nodes = characteristic::write_rule(set_up.raw(), table.lent(), &mut other);
    assert_eq!(nodes.map(|_| ()).map_err(|refusal| refusal.number), expected);
    let case = format!("{case}, {}", said(nodes, "nodes"));
    if !report.wants(&case) {
        return;
    }
    assert_eq!(nodes, gurvazze::rule(raw(set_up), lent(table), &mut to).map_err(in_reference_words));
    assert_eq!(to, other);
    report.compare(
        &case,
        || gurvazze::rule(raw(black_box(set_up)), lent(black_box(table)), black_box(&mut to)),
        || characteristic::write_rule(black_box(set_up).raw(), black_box(table).lent(), black_box(&mut other)),
    );
}

fn rules_of_tables(report: &mut Report) {
    report.section("rule of a table");
    for states in [1, 4, 12] {
        let table = RawTable::chain(states, 3);
        line_rule(report, &format!("chain of {states}, 1 event"), &four(1), &table, Ok(()));
    }
    for events in [2, 4] {
        let set_up = four(events);
        let table = loop_table(&set_up, 12, |_| 1);
        line_rule(report, &format!("loop of 12, {events} events"), &set_up, &table, Ok(()));
    }
    line_rule(report, "6 states, branching, 2 events", &four(2), &branching(&four(2), 6), Ok(()));
    for events in [1, 4, 16] {
        let set_up = four(events);
        let table = loop_table(&set_up, 1, |_| 1);
        line_rule(report, &format!("1 state, {events} events"), &set_up, &table, Ok(()));
    }
}

fn worst(report: &mut Report) {
    report.section("worst cases");
    let set_up = four(1);
    let mut line = |case: &str, nodes: &[Node], expected: Result<(), u8>| {
        line_table(report, case, &file(&four(1), nodes), expected);
    };
    let loops = joined(&[2, 3, 5, 7, 11, 13, 17, 19, 23].map(ring));
    line("table: nine loops of prime lengths", &loops, Err(10));
    let binders = nested(Node::Greatest, 12);
    line("table: 12 nested V", &binders, Ok(()));
    line("table: 18 times 12 nested V", &side_by_side(&binders, 18), Ok(()));
    line("table: 255 nested G", &nested(Node::After(0), 255), Ok(()));
    line("table: loops of 16 and 17", &joined(&[ring(16), ring(17)]), Err(10));
    line("table: A nested to the left", &side_by_side(&[Node::True], 128), Ok(()));
    let full = four(16);
    let next = |state: usize, event: usize| ((state * 16 + event) * 7 + state) % 64;
    let all = table_of(&full, 64, |state, event| Entry { value: 1, next: next(state, event) as u8 });
    line_rule(report, "rule: 64 states, 16 events, all joined", &full, &all, Err(12));
    line_rule(report, "rule: chain of 63, 1 event", &set_up, &RawTable::chain(63, 3), Err(23));
    // The device is low but for its last state, and the rule is low in its last state alone.
    let table = loop_table(&set_up, 63, |state| if state == 62 { 1 } else { 3 });
    let device = loop_table(&set_up, 64, |state| if state == 63 { 3 } else { 1 });
    line_trial(report, "trial: loops of 64 and 63", &set_up, &table, &device);
    let table = loop_table(&set_up, 254, |state| if state == 253 { 1 } else { 3 });
    let device = loop_table(&set_up, 63, |state| if state == 62 { 3 } else { 1 });
    line_trial(report, "trial: loops of 63 and 254", &set_up, &table, &device);
    let set_up = four(16);
    let (device, table) = (loop_table(&set_up, 64, |_| 1), loop_table(&set_up, 63, |_| 3));
    line_trial(report, "trial: loops of 64 and 63, 16 events", &set_up, &table, &device);
}
