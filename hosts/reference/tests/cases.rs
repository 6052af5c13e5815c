//! The marked cases of document 01, those it has run only, and cases for document 02.

mod common;

use common::{bytes, file, four, joined_loops, rule, steps, table};
use gurvazze_reference::formula::{joined, Formulas, Rule};
use gurvazze_reference::generate::{under, Generator, RawTable};
use gurvazze_reference::table::{Lent, Table};
use gurvazze_reference::trial::{covers, same_values, satisfies, trial, Grade, Verdict};
use gurvazze_reference::values::{Kind, RawSetUp, FOUR_VALUES};
use gurvazze_reference::{channel_file, characteristic, render, Refusal};

const PRINTED: &str = "events=2\nstates=3\nrow=0 0 3 1\nrow=0 1 1 2\nrow=1 0 3 1\nrow=1 1 3 1\nrow=2 0 3 1\nrow=2 1 3 2\n";

#[test]
fn case_1_true_has_one_open_state() {
    assert_eq!(table(&four(2), "T").unwrap().to_bytes(), [3, 0, 3, 0]);
}

#[test]
fn case_2_the_file_has_its_rows() {
    let text = file("A O1.1 V G1 X0");
    assert_eq!(render::program(&text), PRINTED);
    assert_eq!(channel_file::tokens(&text), b"A O1.1 V G1 X0");
}

#[test]
fn case_3_two_outputs_meet() {
    let table = table(&four(2), "A O0.1 O0.2").unwrap();
    assert_eq!(table.states(), 2);
    assert_eq!(table.entry(0, 0).value, 0);
    assert_eq!(table.to_bytes(), [0, 1, 3, 1, 3, 1, 3, 1]);
}

#[test]
fn case_4_low_for_ever_after_the_first() {
    let set_up = four(2);
    let items = "V A G1 O1.1 G1 X0";
    let table = table(&set_up, items).unwrap();
    assert_eq!(table.states(), 3);
    let word = [1; 20];
    let mut expected = vec![1; 20];
    expected[0] = 3;
    assert_eq!(table.run(0, &word).0, expected);
    let mut formulas = Formulas::new(set_up.clone());
    let root = formulas.of_rule(&rule(&set_up, items).unwrap());
    assert_eq!(formulas.values(root, &word), expected);
}

#[test]
fn cases_5_6_8_and_9_are_refused() {
    let set_up = four(2);
    for (items, number, place) in [("X0", 8, 0), ("V X0", 9, 1), ("A T", 7, 2), ("T T", 7, 1)] {
        assert_eq!(rule(&set_up, items), Err(Refusal::at(number, place)), "{items}");
        assert_eq!(render::program(&file(items)), format!("refused={number} {place}\n"), "{items}");
    }
}

/// "Case 7 is accepted" (document 02, F-2).
#[test]
fn case_7_has_three_states() {
    let items = "V G0 V A X1 G0 X0";
    let table = table(&four(2), items).unwrap();
    assert_eq!(table.states(), 3);
    assert_eq!(table.to_bytes(), [3, 1, 3, 2, 3, 1, 3, 2, 3, 2, 3, 2]);
    let printed = "events=2\nstates=3\nrow=0 0 3 1\nrow=0 1 3 2\nrow=1 0 3 1\nrow=1 1 3 2\nrow=2 0 3 2\nrow=2 1 3 2\n";
    assert_eq!(render::program(&file(items)), printed);
}

#[test]
fn case_10_outer_variable() {
    assert_eq!(table(&four(2), "V V G0 X1").unwrap().states(), 2);
}

#[test]
fn case_11_rule_of_a_table() {
    let set_up = four(2);
    let rows = [1, 0, 2, 1, 2, 1, 1, 1];
    let given = Lent { states: 2, start: 0, bytes: &rows }.table(&set_up).unwrap();
    let written = characteristic::rule_of(&given, 0).unwrap();
    assert_eq!(written.nodes().len(), 19);
    assert_eq!(written.to_bytes(), bytes("V A G0 X0 A O0.1 A G1 V A G0 X0 A O0.2 A G1 X0 O1.1 O1.2"));
    assert_eq!(Table::of_rule(&set_up, &written).unwrap().to_bytes(), rows);
}

#[test]
fn case_12_trials() {
    let set_up = four(2);
    let open = Lent { states: 1, start: 0, bytes: &[3, 0, 3, 0] }.table(&set_up).unwrap();
    let against = rule(&set_up, "A O0.1 O0.2").unwrap();
    let of_rule = Table::of_rule(&set_up, &against).unwrap();
    assert_eq!(trial(&set_up, (&open, 0), (&of_rule, 0)), Verdict::Fails(vec![0]));
    assert!(!satisfies(&set_up, &against, &open, 0));
    // "Both values 0: passes every rule."
    let closed = Lent { states: 1, start: 0, bytes: &[0, 0, 0, 0] }.table(&set_up).unwrap();
    for seed in 0..200 {
        let any = Generator::new(seed).rule(&set_up);
        assert!(satisfies(&set_up, &any, &closed, 0));
        if let Ok(of_rule) = Table::of_rule(&set_up, &any) {
            assert!(matches!(trial(&set_up, (&closed, 0), (&of_rule, 0)), Verdict::Passes(_)));
        }
    }
}

/// Document 02, F-1: shortest, then the smaller event at the first difference. One state, both values 3.
#[test]
fn the_first_failing_word() {
    let set_up = four(2);
    let open = Lent { states: 1, start: 0, bytes: &[3, 0, 3, 0] }.table(&set_up).unwrap();
    for (items, word) in [("A O0.1 O1.1", vec![0]), ("A G0 O1.1 G1 O0.1", vec![0, 1]), ("A G1 O0.1 G0 G0 O0.1", vec![1, 0])] {
        let of_rule = table(&set_up, items).unwrap();
        assert_eq!(trial(&set_up, (&open, 0), (&of_rule, 0)), Verdict::Fails(word), "{items}");
    }
}

/// Document 02, F-5: same exactly if every event sequence ends in equal values. The last two are strictly below on one word alone.
#[test]
fn same_or_only_stricter() {
    let set_up = four(2);
    let one_state = |value: u8| Lent { states: 1, start: 0, bytes: &[value, 0, value, 0] }.table(&set_up).unwrap();
    let of_rule = |items: &str| table(&set_up, items).unwrap();
    for (device, items, verdict) in [
        (one_state(3), "T", Verdict::Passes(Grade::Same)),
        (one_state(0), "T", Verdict::Passes(Grade::Stricter)),
        (of_rule("O0.1"), "A O0.1 O0.2", Verdict::Fails(vec![0])),
        (of_rule("A O1.1 V G1 X0"), "O1.1", Verdict::Passes(Grade::Same)),
        (of_rule("A O0.1 O0.2"), "O0.1", Verdict::Passes(Grade::Stricter)),
        (of_rule("A G0 O0.1 G0 G0 O0.1"), "G0 O0.1", Verdict::Passes(Grade::Stricter)),
    ] {
        let table = of_rule(items);
        let (ours, theirs) = ((&device, 0), (&table, 0));
        assert_eq!(same_values(&set_up, ours, theirs), verdict == Verdict::Passes(Grade::Same), "{items}");
        assert_eq!(trial(&set_up, ours, theirs), verdict, "{items}");
    }
}

/// Document 02, F-5: the second state has other values, which count only where it is reached.
#[test]
fn unreached_states_have_no_grade() {
    let set_up = four(2);
    let of_bytes = |bytes: &[u8]| Lent { states: 2, start: 0, bytes }.table(&set_up).unwrap();
    let (apart, joined) = (of_bytes(&[3, 0, 3, 0, 0, 1, 1, 1]), of_bytes(&[3, 0, 3, 1, 0, 1, 1, 1]));
    let open = table(&set_up, "T").unwrap();
    for (device, table, grade) in [
        ((&apart, 0), (&open, 0), Grade::Same),
        ((&joined, 0), (&open, 0), Grade::Stricter),
        ((&apart, 1), (&open, 0), Grade::Stricter),
        ((&open, 0), (&apart, 0), Grade::Same),
        ((&joined, 1), (&apart, 1), Grade::Same),
    ] {
        assert_eq!(same_values(&set_up, device, table), grade == Grade::Same);
        assert_eq!(trial(&set_up, device, table), Verdict::Passes(grade));
    }
}

/// Document 02, F-14: whether the first rule implies the second, or the word on which its table fails.
#[test]
fn one_rule_covers_another() {
    let set_up = four(2);
    let answer = |first: &str, second: &str| covers(set_up.raw(), &bytes(first), &bytes(second));
    for (first, second, word) in [
        ("O0.0", "A O0.1 O0.2", None),
        ("A O0.1 O0.2", "O0.0", None),
        ("V A O0.1 G0 X0", "A O0.1 G0 O0.1", None),
        ("A O0.1 G0 O0.1", "V A O0.1 G0 X0", Some(vec![0, 0, 0])),
        ("T", "O0.3", None),
        ("O0.3", "T", None),
        ("T", "O1.2", Some(vec![1])),
        ("O0.1", "A O0.1 O0.2", Some(vec![0])),
    ] {
        assert_eq!(answer(first, second), Ok(word), "{first} / {second}");
    }
    // A device loop of 64 states against a rule loop of 63, and one of 63 against one of 251 (document 02, F-12).
    for (states, others) in [(64, 63), (63, 251)] {
        let first = format!("V {}G0 X0", "A O0.1 G0 ".repeat(states - 1));
        let second = format!("V {}A O0.1 G0 X0", "G0 ".repeat(others - 1));
        assert_eq!(covers(four(1).raw(), &bytes(&first), &bytes(&second)), Ok(Some(vec![0; states * others])));
    }
}

/// Document 02, F-14: 1 to 3, then 5 to 10 and 23 of the first rule, then of the second; then 11 where the first has over 64 states.
#[test]
fn refusals_of_covering() {
    let set_up = four(2);
    let (over, deep, large) = (joined_loops(16, 17), under(13, "T"), steps(64));
    for (first, second, refusal) in [
        ("V X0", "X0", Refusal::at(9, 1)),
        ("X0", "V X0", Refusal::at(8, 0)),
        ("T", "A G0 T X0", Refusal::at(8, 3)),
        ("A T", "", Refusal::at(7, 2)),
        ("T", "", Refusal::new(5)),
        ("", "O2.0", Refusal::new(5)),
        ("T", "O2.0", Refusal::at(6, 0)),
        (&over, "T T", Refusal::new(10)),
        ("T", &over, Refusal::new(10)),
        (&deep, "T T", Refusal::new(23)),
        ("T", &deep, Refusal::new(23)),
        (&over, &deep, Refusal::new(10)),
        (&large, "X0", Refusal::at(8, 0)),
        (&large, &over, Refusal::new(10)),
        (&large, "T", Refusal::new(11)),
        (&large, &large, Refusal::new(11)),
    ] {
        assert_eq!(covers(set_up.raw(), &bytes(first), &bytes(second)), Err(refusal), "{first} / {second}");
        let damaged = RawSetUp::numbers(2, 4, 4, FOUR_VALUES.to_vec());
        assert_eq!(covers(&damaged, &bytes(first), &bytes(second)), Err(Refusal::new(2)));
    }
    for second in [63, 64, 255] {
        assert_eq!(covers(set_up.raw(), &bytes(&steps(63)), &bytes(&steps(second))), Ok(None));
    }
}

/// Document 02, F-14: an A node, then the two rules; its values are the meets.
#[test]
fn two_rules_joined() {
    let set_up = four(2);
    let both = joined(Kind::Numbers, &bytes("O0.1"), &bytes("V A O0.2 G1 X0"));
    assert_eq!(both, bytes("A O0.1 V A O0.2 G1 X0"));
    let table = Table::of_rule(&set_up, &Rule::from_bytes(&set_up, &both).unwrap()).unwrap();
    assert_eq!(table.run(0, &[0, 0]).0, [0, 3]);
    assert_eq!(table.run(0, &[1, 1, 0]).0, [3, 3, 2]);
}

/// "document 01's G0 64 times is now accepted with 65 states" (document 02, F-12). With as many nodes as a rule may have, 256.
#[test]
fn a_state_for_each_step_and_one_more() {
    for events in [1, 2, 16] {
        for count in [0, 1, 62, 63, 64, 127, 254, 255] {
            assert_eq!(table(&four(events), &steps(count)).unwrap().states(), count + 1, "{count} steps, {events} events");
        }
    }
    assert_eq!(rule(&four(1), &steps(256)), Err(Refusal::new(5)));
    // One event: each state goes to the next, and the last, which is empty, to itself.
    let chain = RawTable::chain(256, 3);
    assert_eq!(table(&four(1), &steps(255)).unwrap().to_bytes(), chain.bytes);
    // Two events: on the other one every state goes to the empty set, which is number 2.
    let of_two = table(&four(2), &steps(255)).unwrap();
    assert_eq!((of_two.entry(0, 0).next, of_two.entry(0, 1).next), (1, 2));
    assert_eq!((of_two.entry(1, 0).next, of_two.entry(255, 0).next, of_two.entry(255, 1).next), (3, 2, 2));
    let printed = render::program(&file(&steps(255)));
    assert!(printed.starts_with("events=2\nstates=256\n") && printed.ends_with("\nrow=255 0 3 2\nrow=255 1 3 2\n"));
}

/// Two loops joined reach as many sets as the product of their lengths, where those have no common divisor, and with a second event the
/// empty set too. 10 at 257 states.
#[test]
fn two_hundred_fifty_six_states_and_no_more() {
    for (first, second, events, states) in [
        (15, 16, 1, Ok(240)),
        (15, 16, 2, Ok(241)),
        (15, 17, 1, Ok(255)),
        (15, 17, 2, Ok(256)),
        (1, 250, 1, Ok(250)),
        (16, 16, 1, Ok(16)),
        (16, 17, 1, Err(Refusal::new(10))),
        (16, 17, 2, Err(Refusal::new(10))),
        (3, 86, 1, Err(Refusal::new(10))),
    ] {
        let items = joined_loops(first, second);
        let made = table(&four(events), &items).map(|table| table.states());
        assert_eq!(made, states, "loops of {first} and {second}, {events} events");
    }
    // What is demanded on the first event alone makes state 0 a set that is not met again; what is demanded on the second, two sets.
    let one = four(1);
    let beside = |more: &str| table(&one, &format!("A {more} {}", joined_loops(15, 17))).map(|table| table.states());
    assert_eq!(beside("T"), Ok(255));
    assert_eq!(beside("O0.1"), Ok(256));
    assert_eq!(beside("G0 O0.1"), Err(Refusal::new(10)));
    let over = joined_loops(16, 17);
    assert!(rule(&four(2), &over).is_ok());
    assert_eq!(render::program(&file(&over)), "refused=10\n");
    assert!(channel_file::read(&file(&over)).is_ok());
}

/// "document 01's chain of 63 states is refused and a chain of 12 is accepted" (document 02, F-9). 64 states have 257 nodes.
#[test]
fn chains_of_12_13_63_and_64_states() {
    let set_up = four(1);
    let chain = |states: usize| RawTable::chain(states, 1).lent().table(&set_up).unwrap();
    let written: Rule = characteristic::rule_of(&chain(12), 0).unwrap();
    assert_eq!(written.nodes().len(), 49);
    assert_eq!(Table::of_rule(&set_up, &written), Ok(chain(12)));
    for (states, number) in [(13, 23), (63, 23), (64, 12), (65, 12), (255, 12), (256, 12)] {
        assert_eq!(characteristic::rule_of(&chain(states), 0), Err(Refusal::new(number)), "{states} states");
    }
    // From these states on it is 63, 13 and 12 states long.
    let longest = chain(64);
    assert_eq!(characteristic::rule_of(&longest, 1), Err(Refusal::new(23)));
    assert_eq!(characteristic::rule_of(&longest, 51), Err(Refusal::new(23)));
    assert_eq!(characteristic::rule_of(&longest, 52), Ok(written));
}
