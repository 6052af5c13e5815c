//! Sixteen-line heads (document 02, F-7): the marked cases in register form, limits worked out by hand, and registers held against the
//! four-value set line by line.

mod common;

use common::{bytes_of, joined_loops, reading, register, register_file, rule, seeds, steps, table, Both, WHEEL};
use gurvazze_reference::channel_file::{self, lines_of, read_of, tokens_of};
use gurvazze_reference::formula::{joined, Formulas, Node, Rule};
use gurvazze_reference::generate::{under, Generator, RawTable};
use gurvazze_reference::table::{compile, Entry, Lent, Table};
use gurvazze_reference::tool::{Call, Channel, Log, Tool, Wheel, MAX_TOTAL};
use gurvazze_reference::trial::{
    covers, satisfies, satisfying, trial, trial_of_rule, trial_of_table, Grade, Outcome, Verdict, WORD_BYTES,
};
use gurvazze_reference::values::{masks_of, of_masks, Comparison, Kind, RawSetUp, SetUp, Value};
use gurvazze_reference::{characteristic, render, Refusal};

fn refused<T>(number: u8) -> Result<T, Refusal> {
    Err(Refusal::new(number))
}

/// A rule of a register in bytes from its items.
fn bytes(items: &str) -> Vec<u8> {
    bytes_of(Kind::Register, items)
}

fn program(text: &[u8]) -> String {
    render::program_of(Kind::Register, text)
}

/// Four lines: all open, none possible, line 0 low and the others open.
const OPEN: Value = of_masks(15, 15);
const CONFLICT: Value = of_masks(0, 0);
const LOW: Value = of_masks(15, 14);

/// Entries of masks below 256 in bytes: may-be-low, may-be-high, next state.
fn entries(rows: &[(u8, u8, u8)]) -> Vec<u8> {
    rows.iter().flat_map(|&(low, high, next)| [low, 0, high, 0, next]).collect()
}

// The marked cases, two events, four lines.

#[test]
fn case_1_true_has_one_open_state() {
    assert_eq!(table(&register(2, 4), "T").unwrap().to_bytes(), [15, 0, 15, 0, 0, 15, 0, 15, 0, 0]);
}

const PRINTED: &str = "events=2\nstates=3\nrow=0 0 15 15 1\nrow=0 1 15 14 2\nrow=1 0 15 15 1\nrow=1 1 15 15 1\nrow=2 0 15 15 1\nrow=2 1 15 15 2\n";

#[test]
fn case_2_the_file_has_its_rows() {
    let text = b"events=2\nlines=4\nrule=A O1.15.14 V G1 X0\n";
    assert_eq!(register_file("A O1.15.14 V G1 X0"), text);
    assert_eq!(program(text), PRINTED);
    assert_eq!(tokens_of(Kind::Register, text), b"A O1.15.14 V G1 X0");
    // Each program has its own form.
    assert_eq!(render::program(text), "refused=4 9\n");
    assert_eq!(program(&common::file("T")), "refused=4 9\n");
}

#[test]
fn case_3_two_outputs_meet() {
    let table = table(&register(2, 4), "A O0.15.14 O0.14.15").unwrap();
    assert_eq!(table.states(), 2);
    assert_eq!(table.entry(0, 0).value, of_masks(14, 14));
    assert_eq!(table.to_bytes(), entries(&[(14, 14, 1), (15, 15, 1), (15, 15, 1), (15, 15, 1)]));
}

#[test]
fn case_4_low_for_ever_after_the_first() {
    let set_up = register(2, 4);
    let items = "V A G1 O1.15.14 G1 X0";
    let table = table(&set_up, items).unwrap();
    assert_eq!(table.states(), 3);
    let mut expected = vec![LOW; 20];
    expected[0] = OPEN;
    assert_eq!(table.run(0, &[1; 20]).0, expected);
    let mut formulas = Formulas::new(set_up.clone());
    let root = formulas.of_rule(&rule(&set_up, items).unwrap());
    assert_eq!(formulas.values(root, &[1; 20]), expected);
}

#[test]
fn cases_5_6_8_and_9_are_refused_and_7_and_10_are_not() {
    let set_up = register(2, 4);
    for (items, number, place) in [("X0", 8, 0), ("V X0", 9, 1), ("A T", 7, 2), ("T T", 7, 1)] {
        assert_eq!(rule(&set_up, items), Err(Refusal::at(number, place)), "{items}");
        assert_eq!(program(&register_file(items)), format!("refused={number} {place}\n"), "{items}");
    }
    assert_eq!(table(&set_up, "V G0 V A X1 G0 X0").unwrap().states(), 3);
    assert_eq!(table(&set_up, "V V G0 X1").unwrap().states(), 2);
}

#[test]
fn case_11_rule_of_a_table() {
    let set_up = register(2, 4);
    let rows = entries(&[(15, 14, 0), (14, 15, 1), (14, 15, 1), (15, 14, 1)]);
    let given = Lent { states: 2, start: 0, bytes: &rows }.table(&set_up).unwrap();
    let written = characteristic::rule_of(&given, 0).unwrap();
    let items = "V A G0 X0 A O0.15.14 A G1 V A G0 X0 A O0.14.15 A G1 X0 O1.15.14 O1.14.15";
    assert_eq!((written.nodes().len(), written.to_bytes()), (19, bytes(items)));
    assert_eq!(Table::of_rule(&set_up, &written).unwrap().to_bytes(), rows);
    let text = channel_file::to_text(&set_up, &written);
    assert_eq!(text, format!("events=2\nlines=4\nrule={items}\n"));
    assert_eq!(read_of(Kind::Register, text.as_bytes()).unwrap().rule, written);
}

#[test]
fn case_12_trials() {
    let set_up = register(2, 4);
    let one_state = |value: Value| {
        let (low, high) = masks_of(value);
        let rows = entries(&[(low as u8, high as u8, 0); 2]);
        Lent { states: 1, start: 0, bytes: &rows }.table(&set_up).unwrap()
    };
    let against = rule(&set_up, "A O0.15.14 O0.14.15").unwrap();
    let of_rule = Table::of_rule(&set_up, &against).unwrap();
    assert_eq!(trial(&set_up, (&one_state(OPEN), 0), (&of_rule, 0)), Verdict::Fails(vec![0]));
    assert!(!satisfies(&set_up, &against, &one_state(OPEN), 0));
    // No line may be anything: passes every rule.
    let closed = one_state(CONFLICT);
    for seed in 0..200 {
        let any = Generator::new(seed).rule(&set_up);
        assert!(satisfies(&set_up, &any, &closed, 0));
        if let Ok(of_rule) = Table::of_rule(&set_up, &any) {
            assert!(matches!(trial(&set_up, (&closed, 0), (&of_rule, 0)), Verdict::Passes(_)));
        }
    }
    // Grades (F-5), and the first failing word (F-1).
    for (device, items, verdict) in [
        (one_state(OPEN), "T", Verdict::Passes(Grade::Same)),
        (one_state(LOW), "T", Verdict::Passes(Grade::Stricter)),
        (table(&set_up, "A O0.15.14 O0.14.15").unwrap(), "O0.15.14", Verdict::Passes(Grade::Stricter)),
        (table(&set_up, "O0.15.14").unwrap(), "A O0.15.14 O0.14.15", Verdict::Fails(vec![0])),
        (table(&set_up, "A O1.15.14 V G1 X0").unwrap(), "O1.15.14", Verdict::Passes(Grade::Same)),
        (one_state(OPEN), "A G1 O0.15.14 G0 G0 O0.15.14", Verdict::Fails(vec![1, 0])),
        // Line 3 alone, in one mask alone.
        (one_state(OPEN), "G1 G1 O1.7.15", Verdict::Fails(vec![1, 1, 1])),
        (one_state(of_masks(7, 15)), "V A G0 X0 A G1 X0 A O0.7.15 O1.7.15", Verdict::Passes(Grade::Same)),
        (one_state(of_masks(7, 7)), "V A G0 X0 A G1 X0 A O0.7.15 O1.7.15", Verdict::Passes(Grade::Stricter)),
        (one_state(of_masks(15, 7)), "O1.7.15", Verdict::Fails(vec![1])),
    ] {
        assert_eq!(trial(&set_up, (&device, 0), (&table(&set_up, items).unwrap(), 0)), verdict, "{items}");
    }
}

/// Document 02, F-14, for a register.
#[test]
fn one_rule_covers_another() {
    let raw = RawSetUp::register(2, 4);
    for (first, second, word) in [
        ("O0.14.14", "A O0.15.14 O0.14.15", None),
        ("A O0.15.14 O0.14.15", "O0.14.14", None),
        ("O0.0.0", "O0.14.14", None),
        ("O0.14.14", "O0.0.0", Some(vec![0])),
        ("V A O0.15.14 G0 X0", "A O0.15.14 G0 O0.15.14", None),
        ("A O0.15.14 G0 O0.15.14", "V A O0.15.14 G0 X0", Some(vec![0, 0, 0])),
        ("T", "O0.15.15", None),
        ("T", "O1.15.7", Some(vec![1])),
    ] {
        assert_eq!(covers(&raw, &bytes(first), &bytes(second)), Ok(word), "{first} / {second}");
    }
    for (first, second, refusal) in [
        ("O0.16.0", "X0", Refusal::at(6, 0)),
        ("T", "A T O0.0.16", Refusal::at(6, 2)),
        (&steps(64), "T", Refusal::new(11)),
        (&joined_loops(16, 17), "", Refusal::new(10)),
        ("T", "", Refusal::new(5)),
    ] {
        assert_eq!(covers(&raw, &bytes(first), &bytes(second)), Err(refusal), "{first} / {second}");
        assert_eq!(covers(&RawSetUp::register(2, 17), &bytes(first), &bytes(second)), refused(20));
    }
    assert_eq!(joined(Kind::Register, &bytes("T"), &bytes("O0.1.2")), bytes("A T O0.1.2"));
}

// Set-ups and values.

/// "Turned away: 20, lines outside 1 to 16, in the place of 2 and 3": after 1.
#[test]
fn set_ups() {
    for lines in [1, 2, 15, 16] {
        assert_eq!(RawSetUp::register(1, lines).check(), Ok(()));
        assert_eq!(RawSetUp::register(16, lines).check(), Ok(()));
    }
    for lines in [0, 17, 18, 255, 256, 257, 272, 65_537, 1 << 32, usize::MAX] {
        assert_eq!(RawSetUp::register(1, lines).check(), refused(20), "{lines}");
        assert_eq!(RawSetUp::register(0, lines).check(), refused(1), "{lines}");
        assert_eq!(RawSetUp::register(17, lines).check(), refused(1), "{lines}");
    }
    for events in [0, 17, 256, 257, usize::MAX] {
        assert_eq!(RawSetUp::register(events, 16).check(), refused(1), "{events}");
    }
}

/// "top has all lines' bits set in both", "meet is the bitwise and of each".
#[test]
fn top_and_meet() {
    for (lines, all) in [(1, 1), (2, 3), (8, 255), (9, 511), (15, 32_767), (16, 65_535)] {
        let set_up = register(1, lines);
        assert_eq!(masks_of(set_up.top()), (all, all), "{lines}");
        assert_eq!(table(&set_up, "T").unwrap().entry(0, 0).value, set_up.top());
        assert!(set_up.has(set_up.top()) && set_up.has(0));
        // One bit more, where there is one.
        for more in [of_masks(all, all.wrapping_add(1)), of_masks(all.wrapping_add(1), all)] {
            assert_eq!(set_up.has(more), lines == 16, "{lines}");
        }
        assert_eq!(set_up.has(of_masks(1 << 15, 0)), lines == 16, "{lines}");
        assert_eq!(set_up.has(of_masks(0, 1 << 15)), lines == 16, "{lines}");
    }
    let set_up = register(1, 16);
    let (b, c) = (of_masks(0b1100, 0xff00), of_masks(0b1010, 0x0ff0));
    assert_eq!(set_up.meet(b, c), of_masks(0b1000, 0x0f00));
    assert_eq!(set_up.compare(b, c), Comparison::NotBelow);
    assert_eq!(set_up.compare(set_up.meet(b, c), b), Comparison::StrictlyBelow);
    assert_eq!(set_up.compare(b, set_up.top()), Comparison::StrictlyBelow);
    // Below in one mask, not in the other.
    assert_eq!(set_up.compare(of_masks(1, 3), of_masks(3, 1)), Comparison::NotBelow);
    assert_eq!(set_up.compare(of_masks(3, 1), of_masks(1, 3)), Comparison::NotBelow);
}

/// The four laws, for every three values of one and two lines.
#[test]
fn the_four_laws() {
    for lines in [1, 2] {
        let set_up = register(1, lines);
        let masks = 0..1u16 << lines;
        let values: Vec<Value> = masks.clone().flat_map(|low| masks.clone().map(move |high| of_masks(low, high))).collect();
        assert!(values.iter().all(|&b| set_up.meet(b, b) == b && set_up.meet(b, set_up.top()) == b));
        for (&b, &c) in values.iter().flat_map(|b| values.iter().map(move |c| (b, c))) {
            assert_eq!(set_up.meet(b, c), set_up.meet(c, b));
            assert!(values.iter().all(|&d| set_up.meet(set_up.meet(b, c), d) == set_up.meet(b, set_up.meet(c, d))));
        }
    }
}

// Rules and tables in bytes.

/// "A node is six bytes: kind, first, low mask, high mask, each mask's low byte first."
#[test]
fn nodes_are_six_bytes() {
    let set_up = register(2, 16);
    assert_eq!(bytes("O1.258.772"), [3, 1, 2, 1, 4, 3]);
    let rule = Rule::from_bytes(&set_up, &[3, 1, 2, 1, 4, 3]).unwrap();
    assert_eq!(rule.nodes(), [Node::Output(1, of_masks(0x0102, 0x0304))]);
    assert_eq!(rule.to_bytes(), [3, 1, 2, 1, 4, 3]);
    assert_eq!(Table::of_rule(&set_up, &rule).unwrap().to_bytes()[5..10], [2, 1, 4, 3, 1]);
    for length in [0, 1, 3, 5, 7, 11, 768, 769, 1535, 1537, 1542] {
        let answer = if length == 768 { Err(Refusal::at(7, 1)) } else { refused(5) };
        assert_eq!(Rule::from_bytes(&set_up, &vec![0; length]), answer, "{length}");
    }
    assert_eq!(Rule::from_bytes(&set_up, &vec![0; 1536]), Err(Refusal::at(7, 1)));
    assert_eq!(Rule::from_bytes(&set_up, &vec![9; 1536]), Err(Refusal::at(6, 0)));
    assert_eq!(Rule::from_bytes(&set_up, &vec![9; 1537]), refused(5));
}

/// "A mask bit at or above the line count is refusal 6 in a rule", and so is a mask of a node that has no value.
#[test]
fn masks_of_nodes() {
    for (lines, all) in [(1, 1u16), (4, 15), (8, 255), (15, 32_767)] {
        let set_up = register(1, lines);
        assert!(rule(&set_up, &format!("O0.{all}.{all}")).is_ok(), "{lines}");
        for mask in [all + 1, 2 * all + 1, 32_768, 65_535] {
            assert_eq!(rule(&set_up, &format!("O0.{mask}.0")), Err(Refusal::at(6, 0)), "{lines} {mask}");
            assert_eq!(rule(&set_up, &format!("A T O0.0.{mask}")), Err(Refusal::at(6, 2)), "{lines} {mask}");
        }
    }
    assert!(rule(&register(1, 16), "O0.65535.65535").is_ok());
    let set_up = register(2, 16);
    for node in [[0, 0], [1, 0], [1, 9], [2, 0], [2, 1], [4, 0], [5, 0]] {
        for mask in 0..4 {
            for bits in [1, 128, 255] {
                let mut bytes = [node[0], node[1], 0, 0, 0, 0];
                bytes[2 + mask] = bits;
                assert_eq!(Rule::from_bytes(&set_up, &bytes), Err(Refusal::at(6, 0)), "{bytes:?}");
            }
        }
    }
    for bytes in [[0, 1, 0, 0, 0, 0], [2, 2, 0, 0, 0, 0], [3, 2, 0, 0, 0, 0], [4, 1, 0, 0, 0, 0], [5, 1, 0, 0, 0, 0], [6; 6]] {
        assert_eq!(Rule::from_bytes(&set_up, &bytes), Err(Refusal::at(6, 0)), "{bytes:?}");
    }
    assert_eq!(Rule::from_bytes(&set_up, &[1, 255, 0, 0, 0, 0]), Err(Refusal::at(8, 0)));
    // Lowest of all nodes, over the whole rule before 7.
    assert_eq!(rule(&register(2, 4), "A O0.15.15"), Err(Refusal::at(7, 2)));
    assert_eq!(rule(&register(2, 4), "T O0.15.16"), Err(Refusal::at(6, 1)));
}

/// "A lent table entry is five: the masks likewise, then the next state." "A mask bit at or above the line count is refusal ... 11 in a
/// table".
#[test]
fn tables_handed_in() {
    let entry = |low: u16, high: u16, next: u8| [&low.to_le_bytes()[..], &high.to_le_bytes(), &[next]].concat();
    let given = |lines: usize, states: usize, start: usize, bytes: &[u8]| {
        let (set_up, lent) = (register(1, lines), Lent { states, start, bytes });
        let made = lent.table(&set_up);
        assert!(made.iter().all(|table| table.to_bytes() == bytes));
        let of_device = if states > 64 { refused(11) } else { made.clone() };
        assert_eq!(lent.device(&set_up), of_device);
        made.map(|table| table.entries().to_vec())
    };
    assert_eq!(given(16, 1, 0, &[2, 1, 4, 3, 0]), Ok(vec![Entry { value: of_masks(0x0102, 0x0304), next: 0 }]));
    assert!(given(16, 1, 0, &entry(65_535, 65_535, 0)).is_ok());
    for (lines, all) in [(1, 1), (4, 15), (8, 255), (9, 511), (15, 32_767)] {
        assert!(given(lines, 1, 0, &entry(all, all, 0)).is_ok(), "{lines}");
        for mask in [all + 1, 32_768, 65_535] {
            assert_eq!(given(lines, 1, 0, &entry(mask, 0, 0)), refused(11), "{lines} {mask}");
            assert_eq!(given(lines, 1, 0, &entry(0, mask, 0)), refused(11), "{lines} {mask}");
        }
    }
    let two = [entry(3, 1, 1), entry(0, 2, 0)].concat();
    assert!(given(2, 2, 1, &two).is_ok());
    for (states, start, bytes) in [
        (0, 0, &two[..0]),
        (1, 0, &two),
        (3, 0, &two),
        (2, 2, &two),
        (2, 0, &two[..9]),
        (2, 0, &two[..8]),
        (2, 0, &two[..5]),
        (1, 0, &two[..4]),
        (1, 0, &[0, 0, 0, 0, 1]),
        (257, 0, &[0; 1285]),
        (usize::MAX, 0, &two),
    ] {
        assert_eq!(given(2, states, start, bytes), refused(11), "{states} {start} {bytes:?}");
    }
    for states in [64, 65, 256] {
        assert!(given(2, states, states - 1, &vec![0; 5 * states]).is_ok(), "{states}");
        // Two bytes an entry are too few.
        assert_eq!(given(2, states, 0, &vec![0; 2 * states]), refused(11), "{states}");
    }
}

// Calls on lent memory.

/// 1, 20, then the rule's or the table's, and 13 last: five bytes an entry, six a node.
#[test]
fn order_of_refusals_of_calls() {
    let (raw, over) = (RawSetUp::register(2, 4), bytes(&joined_loops(16, 17)));
    let t = bytes("T");
    for (set_up, number) in [((0, 0), 1), ((17, 17), 1), ((2, 0), 20), ((2, 17), 20)] {
        let bad = RawSetUp::register(set_up.0, set_up.1);
        let none = Lent { states: 0, start: 0, bytes: &[] };
        assert_eq!(compile(&bad, &[], &mut []), refused(number));
        assert_eq!(channel_file::write(&bad, &[], &mut []), refused(number));
        assert_eq!(characteristic::write_rule(&bad, none, &mut []), refused(number));
        assert_eq!(trial_of_rule(&bad, none, &[], &mut []), refused(number));
        assert_eq!(trial_of_table(&bad, none, 0, &[], &mut []), refused(number));
        assert_eq!(covers(&bad, &[], &[]), refused(number));
    }
    assert_eq!(compile(&raw, &over, &mut []), refused(10));
    assert_eq!(compile(&raw, &t, &mut [7; 9]), refused(13));
    let mut lent = [7; 11];
    assert_eq!(compile(&raw, &t, &mut lent), Ok(1));
    assert_eq!(lent, [15, 0, 15, 0, 0, 15, 0, 15, 0, 0, 7]);

    let one = RawSetUp::register(1, 4);
    let chain = RawTable::chain_of(Kind::Register, 64, LOW);
    let chain = chain.lent();
    assert_eq!(characteristic::write_rule(&one, Lent { states: 63, ..chain }, &mut []), refused(11));
    assert_eq!(characteristic::write_rule(&one, chain, &mut []), refused(12));
    assert_eq!(characteristic::write_rule(&one, Lent { start: 51, ..chain }, &mut []), refused(23));
    let rest = Lent { start: 62, ..chain };
    assert_eq!(characteristic::write_rule(&one, rest, &mut [7; 53]), refused(13));
    let mut lent = [7; 55];
    assert_eq!(characteristic::write_rule(&one, rest, &mut lent), Ok(9));
    assert_eq!((&lent[..54], lent[54]), (&bytes("V A G0 V A G0 X0 O0.15.14 O0.15.14")[..], 7));

    let closed = Lent { states: 1, start: 0, bytes: &[0; 10] };
    let mut word = [7; WORD_BYTES];
    assert_eq!(trial_of_rule(&raw, closed, &t, &mut word[1..]), refused(13));
    assert_eq!(trial_of_rule(&raw, Lent { states: 0, ..closed }, &over, &mut word), refused(10));
    assert_eq!(trial_of_rule(&raw, Lent { states: 0, ..closed }, &t, &mut []), refused(11));
    assert_eq!(trial_of_rule(&raw, closed, &t, &mut word), Ok(Outcome::Passes(Grade::Stricter)));
    assert_eq!(trial_of_table(&raw, closed, 1, &[0; 10], &mut word), Ok(Outcome::Passes(Grade::Same)));
    assert!(word.iter().all(|&byte| byte == 7));
    let open = Lent { states: 1, start: 0, bytes: &[15, 0, 15, 0, 0, 15, 0, 15, 0, 0] };
    assert_eq!(trial_of_rule(&raw, open, &bytes("G1 O0.15.7"), &mut word), Ok(Outcome::Fails(2)));
    assert_eq!((word[0], word[1], word[2]), (1, 0, 7));
}

/// "document 01's G0 64 times is now accepted with 65 states" (F-12), chains as written rules (F-9): as for numbers.
#[test]
fn sizes() {
    for lines in [1, 16] {
        let set_up = register(1, lines);
        for count in [0, 63, 64, 255] {
            assert_eq!(table(&set_up, &steps(count)).unwrap().states(), count + 1);
        }
        assert_eq!(table(&set_up, &steps(256)), refused(5));
        assert_eq!(table(&set_up, &joined_loops(15, 17)).unwrap().states(), 255);
        assert_eq!(table(&set_up, &joined_loops(16, 17)), refused(10));
        assert_eq!(table(&set_up, &under(13, "T")), refused(23));
        for (states, answer) in [(12, Ok(49)), (13, Err(23)), (63, Err(23)), (64, Err(12)), (256, Err(12)), (257, Err(11))] {
            let chain = RawTable::chain_of(Kind::Register, states, 1);
            let written = characteristic::write_rule(set_up.raw(), chain.lent(), &mut [0; 1536]);
            assert_eq!(written, answer.map_err(Refusal::new), "{states} states");
        }
        // A device loop of 63 states against a table's loop of 254: the failing word has 63 × 254 events.
        let ring = |states: usize, each: Value, last: Value| {
            let value = |state: usize| if state + 1 == states { last } else { each };
            let entry = |state: usize| Entry { value: value(state), next: ((state + 1) % states) as u8 };
            gurvazze_reference::table::in_bytes(Kind::Register, (0..states).map(entry))
        };
        let top = set_up.top();
        let device = ring(63, 0, of_masks(0, 1));
        let device = Lent { states: 63, start: 0, bytes: &device };
        let answer = trial_of_table(set_up.raw(), device, 254, &ring(254, top, 1), &mut [0; WORD_BYTES]);
        assert_eq!(answer, Ok(Outcome::Fails(16_002)));
    }
}

// Channel files.

#[test]
fn places_of_refusal_4() {
    let place = |text: &[u8]| lines_of(Kind::Register, text).map(|_| ()).map_err(|refusal| (refusal.number, refusal.place));
    let at = |place: usize| Err((4, Some(place)));
    assert_eq!(place(b""), at(0));
    assert_eq!(place(b"events=2\r\n"), at(8));
    assert_eq!(place(b"events=01\n"), at(8));
    assert_eq!(place(b"events=1000\n"), at(10));
    assert_eq!(place(b"events=2\nvalues=4\n"), at(9));
    assert_eq!(place(b"events=2\nlines4\n"), at(14));
    assert_eq!(place(b"events=2\nlines=\n"), at(15));
    assert_eq!(place(b"events=2\nlines=04\n"), at(16));
    assert_eq!(place(b"events=2\nlines=1000\n"), at(18));
    assert_eq!(place(b"events=2\nlines=4 \n"), at(16));
    assert_eq!(place(b"lines=4\nevents=2\nrule=T\n"), at(0));
    let start = b"events=2\nlines=4\n";
    let with = |rest: &[u8]| place(&[&start[..], rest].concat());
    let after = |offset: usize| at(start.len() + offset);
    assert_eq!(with(b"top=3\n"), after(0));
    assert_eq!(with(b"rule=\n"), after(5));
    assert_eq!(with(b"rule=T  T\n"), after(7));
    assert_eq!(with(b"rule=X1000\n"), after(9));
    assert_eq!(with(b"rule=G1000 T\n"), after(9));
    // Two parts, four parts, an empty part.
    assert_eq!(with(b"rule=O1\n"), after(7));
    assert_eq!(with(b"rule=O1.1\n"), after(9));
    assert_eq!(with(b"rule=O1.1 T\n"), after(9));
    assert_eq!(with(b"rule=O1.1.\n"), after(10));
    assert_eq!(with(b"rule=O1..1\n"), after(8));
    assert_eq!(with(b"rule=O.1.1\n"), after(6));
    assert_eq!(with(b"rule=O1.1.1.1\n"), after(11));
    // An event keeps three digits, a mask has five, and none a leading zero.
    assert_eq!(with(b"rule=O1000.1.1\n"), after(9));
    assert_eq!(with(b"rule=O01.1.1\n"), after(7));
    assert_eq!(with(b"rule=O1.01.1\n"), after(9));
    assert_eq!(with(b"rule=O1.00.1\n"), after(9));
    assert_eq!(with(b"rule=O1.1.01\n"), after(11));
    assert_eq!(with(b"rule=O1.100000.1\n"), after(13));
    assert_eq!(with(b"rule=O1.1.100000\n"), after(15));
    assert_eq!(with(b"rule=O1.99999.99999\n"), Ok(()));
    assert_eq!(with(b"rule=X999 G999 O999.0.65536 A V T\n"), Ok(()));
    assert_eq!(with(b"rule=O1.-1.1\n"), after(8));
    assert_eq!(with(b"rule=T\n\n"), after(7));
    assert_eq!(with(b"rule=T"), after(6));
}

/// "numbers 65536 to 99999 in a mask are in the form" and are 6, in the usual order; 100000 is 4.
#[test]
fn masks_in_a_file() {
    let of_lines = |lines: &str, items: &str| program(format!("events=1\nlines={lines}\nrule={items}\n").as_bytes());
    let printed =
        |low: u16, high: u16, all: u16| format!("events=1\nstates=2\nrow=0 0 {low} {high} 1\nrow=1 0 {all} {all} 1\n");
    for (lines, all) in [(1, 1), (2, 3), (8, 255), (9, 511), (15, 32_767), (16, 65_535)] {
        let of = |items: &str| of_lines(&lines.to_string(), items);
        assert_eq!(of(&format!("O0.{all}.0")), printed(all, 0, all));
        assert_eq!(of(&format!("O0.0.{all}")), printed(0, all, all));
        for mask in [usize::from(all) + 1, 65_536, 65_537, 98_303, 99_999] {
            assert_eq!(of(&format!("O0.{mask}.0")), "refused=6 0\n", "{lines} {mask}");
            assert_eq!(of(&format!("O0.0.{mask}")), "refused=6 0\n", "{lines} {mask}");
            assert_eq!(of(&format!("O0.{mask}.{mask}")), "refused=6 0\n", "{lines} {mask}");
        }
        assert_eq!(of("O0.100000.0"), format!("refused=4 {}\n", 29 + lines.to_string().len()), "{lines}");
    }
    for (items, expected) in [
        ("A O0.65536.0 G9 T", "6 1"),
        ("A G9 T O0.0.65536", "6 1"),
        ("A T O0.65536.65536", "6 2"),
        ("A O0.65536.0", "6 1"),
        ("T O0.65536.0", "6 1"),
        ("A X999 O0.0.99999", "6 2"),
        ("A X999", "7 2"),
        ("X256", "8 0"),
        ("G256 T", "6 0"),
        ("O256.0.0", "6 0"),
        ("O1.0.0", "6 0"),
    ] {
        assert_eq!(of_lines("16", items), format!("refused={expected}\n"), "{items}");
    }
    assert_eq!(of_lines("16", &vec!["O0.99999.0"; 257].join(" ")), "refused=5\n");
    // Lines 0 to 999 are in the form.
    for lines in ["0", "17", "256", "257", "272", "999"] {
        assert_eq!(of_lines(lines, "X0"), "refused=20\n", "{lines}");
    }
    assert_eq!(program(b"events=0\nlines=0\nrule=X0\n"), "refused=1\n");
    assert_eq!(program(b"events=257\nlines=16\nrule=X0\n"), "refused=1\n");
}

/// "Up to 4,096 bytes".
#[test]
fn the_length_limit_is_tested_first() {
    assert_eq!(program(&[b'?'; 4097]), "refused=4 4096\n");
    assert_eq!(program(&[b'?'; 4096]), "refused=4 0\n");
    let text = |items: usize| register_file(&vec!["T"; items].join(" "));
    let short = text(1).len();
    let at_limit = text(1 + (4096 - short) / 2);
    assert_eq!((at_limit.len(), program(&at_limit)), (4096, "refused=5\n".to_string()));
    let over = text(2 + (4096 - short) / 2);
    assert_eq!((over.len(), lines_of(Kind::Register, &over)), (4098, Err(Refusal::at(4, 4096))));
    assert_eq!(lines_of(Kind::Register, &over[..4096]), Err(Refusal::at(4, 4096)));
    assert_eq!(tokens_of(Kind::Register, &over), b"");
}

/// Every rule's file has room in 4,096 bytes: the longest has as many O nodes as there may be, with as many digits.
#[test]
fn the_longest_file_written() {
    let set_up = register(16, 16);
    let items = format!("G15 {}{}", "A ".repeat(127), vec!["O15.65535.65535"; 128].join(" "));
    let longest = rule(&set_up, &items).unwrap();
    assert_eq!(longest.nodes().len(), 256);
    let mut lent = vec![7; 4096];
    let length = channel_file::write(set_up.raw(), &longest.to_bytes(), &mut lent).unwrap();
    assert_eq!(lent[..length], *format!("events=16\nlines=16\nrule={items}\n").as_bytes());
    assert_eq!(length, 2330);
    assert!(lent[length..].iter().all(|&byte| byte == 7));
    assert_eq!(read_of(Kind::Register, &lent[..length]).unwrap().rule, longest);
    assert_eq!(channel_file::write(set_up.raw(), &longest.to_bytes(), &mut lent[..length - 1]), refused(13));
}

// The tool.

/// Values, distances and refusals of a register's tool, by the tool and by the log.
#[test]
fn a_tool_of_registers() {
    let mut both = Both::of(RawSetUp::register(2, 16), Wheel { pulses: 10, millimetres: 3 });
    assert_eq!(both.load(0, "V A A G1 O1.65535.0 G1 X0 G0 X0"), Ok(None));
    let (open, low) = (of_masks(65_535, 65_535), of_masks(65_535, 0));
    assert_eq!(both.event(0, 1, 5), Ok(reading(open, 1, 5)));
    assert_eq!(both.event(0, 1, 5), Ok(reading(low, 3, 0)));
    assert_eq!(both.event(0, 0, 0), Ok(reading(open, 3, 0)));
    assert_eq!(both.event(0, 2, 0), refused(16));
    assert_eq!(both.event(1, 0, 0), refused(15));
    assert_eq!(both.load(0, "O0.0.0 T"), Err(Refusal::at(7, 1)));
    assert_eq!(both.event(0, 1, 0), Ok(reading(open, 3, 0)));
    both.load(7, "O1.258.772").unwrap();
    assert_eq!(both.event(7, 1, u32::MAX).unwrap().value, of_masks(258, 772));
    for _ in 0..255 {
        both.event(7, 0, u32::MAX).unwrap();
    }
    assert_eq!(both.event(7, 0, 257), refused(19));
    assert_eq!(both.event(7, 0, 256).map(|reading| reading.value), Ok(open));
    // Rows (F-12).
    assert_eq!(both.load(1, &steps(255)), Ok(None));
    assert_eq!(both.load(2, &steps(255)), refused(25));
    both.clear(7).unwrap();
    assert_eq!(both.load(0, "T"), Ok(None));
    assert_eq!(both.load(2, &steps(254)), Ok(None));
    assert_eq!(both.load(3, "T"), refused(25));
    assert_eq!(both.load(3, &joined_loops(16, 17)), refused(10));
    // Nodes of three bytes are none.
    assert_eq!(both.call(Call::Load { channel: 0, rule: vec![0, 0, 0] }), refused(5));
    assert_eq!(both.call(Call::Load { channel: 0, rule: vec![0; 6] }), Ok(None));
}

/// 20 and 18 are also part of 17's test; a mask bit at the line count is 17 in a loaded table.
#[test]
fn spoilt_tools_of_registers() {
    let t = bytes("T");
    let mut loaded = Tool::new(RawSetUp::register(2, 4), WHEEL).unwrap();
    loaded.load(0, &t).unwrap();
    let in_set_up: [fn(&mut Tool); 6] = [
        |tool| tool.set_up = RawSetUp::register(0, 4),
        |tool| tool.set_up = RawSetUp::register(17, 4),
        |tool| tool.set_up = RawSetUp::register(2, 0),
        |tool| tool.set_up = RawSetUp::register(2, 17),
        |tool| tool.wheel.pulses = 0,
        |tool| tool.wheel.millimetres = 65_536,
    ];
    for spoil in in_set_up {
        let mut spoilt = loaded.clone();
        spoil(&mut spoilt);
        for call in [Call::RestartAll, Call::Clear { channel: 8 }, Call::Event { channel: 1, event: 9, pulses: 0 }] {
            assert_eq!(spoilt.clone().call(&call), refused(17));
        }
        assert_eq!(spoilt.load(0, &[]), refused(17));
    }
    let in_channel: [fn(&mut Channel); 6] = [
        |channel| channel.entries[1].value = of_masks(16, 0),
        |channel| channel.entries[0].value = of_masks(0, 16),
        |channel| channel.entries[1].value = of_masks(15, 65_535),
        |channel| channel.entries[1].next = 1,
        |channel| channel.current = 1,
        |channel| channel.total = MAX_TOTAL + 1,
    ];
    for spoil in in_channel {
        let mut spoilt = loaded.clone();
        spoil(&mut spoilt.channels[0]);
        assert_eq!(spoilt.event(0, 0, 0), refused(17));
        assert_eq!(spoilt.clear(0), refused(17));
        assert_eq!(spoilt.restart_all(), refused(17));
        assert_eq!(spoilt.clear(8), refused(14));
        assert_eq!(spoilt.load(1, &t), Ok(()));
    }
    // Fewer lines than the masks of a table need: 17; more are none too few.
    for (lines, answer) in [(3, refused(17)), (4, Ok(reading(OPEN, 0, 0))), (5, Ok(reading(OPEN, 0, 0)))] {
        let mut tool = Tool { set_up: RawSetUp::register(2, lines), ..loaded.clone() };
        assert_eq!(tool.event(0, 0, 0), answer, "{lines}");
    }
    assert_eq!(Log::new(RawSetUp::register(2, 17), Wheel { pulses: 0, ..WHEEL }).map(drop), refused(20));
    assert_eq!(Log::new(RawSetUp::register(2, 16), Wheel { pulses: 0, ..WHEEL }).map(drop), refused(18));
}

// Line by line. A line may be neither, low, high or both: the four-value set's 0 to 3, whose meet is that of the two bits.

/// What one line of a value is in the four-value set.
fn line_of(value: Value, line: usize) -> Value {
    let (low, high) = masks_of(value);
    Value::from(low >> line & 1) + 2 * Value::from(high >> line & 1)
}

/// A rule of one line alone, in the four-value set.
fn rule_of_line(four: &SetUp, rule: &Rule, line: usize) -> Rule {
    let node = |&node: &Node| match node {
        Node::Output(event, value) => Node::Output(event, line_of(value, line)),
        other => other,
    };
    let nodes: Vec<Node> = rule.nodes().iter().map(node).collect();
    Rule::from_bytes(four, &gurvazze_reference::formula::in_bytes(Kind::Numbers, &nodes)).unwrap()
}

/// A table of one line alone, in the four-value set.
fn table_of_line(four: &SetUp, table: &Table, line: usize) -> Table {
    let entry = |&Entry { value, next }: &Entry| Entry { value: line_of(value, line), next };
    let bytes = gurvazze_reference::table::in_bytes(Kind::Numbers, table.entries().iter().map(entry));
    Lent { states: table.states(), start: 0, bytes: &bytes }.table(four).unwrap()
}

/// The lines of a register's set-up.
fn lines_of_set_up(set_up: &SetUp) -> std::ops::Range<usize> {
    0..set_up.top().count_ones() as usize / 2
}

/// A table has the same states whatever the values, and each line has the values of that line's rule.
#[test]
fn tables_line_by_line() {
    let mut tables = 0;
    for seed in seeds(300) {
        let mut g = Generator::new(seed);
        let set_up = g.register();
        let four = common::four(set_up.events());
        let rule = if g.once_in(3) { g.rule_of_loops(&set_up) } else { g.rule(&set_up) };
        let made = Table::of_rule(&set_up, &rule);
        for line in lines_of_set_up(&set_up) {
            let of_line = Table::of_rule(&four, &rule_of_line(&four, &rule, line));
            assert_eq!(of_line, made.clone().map(|table| table_of_line(&four, &table, line)), "seed {seed}, line {line}");
        }
        tables += usize::from(made.is_ok());
    }
    assert!(tables > 200, "{tables}");
}

/// A device satisfies a rule exactly if each line does; the first failing word is the first of all lines', and a pass is same exactly if
/// each line's is.
#[test]
fn trials_line_by_line() {
    let (mut same, mut stricter, mut fails, mut of_one_line) = (0, 0, 0, 0);
    for seed in seeds(1200) {
        let mut g = Generator::new(seed);
        let set_up = g.register();
        let four = common::four(set_up.events());
        let rule = if g.once_in(3) { g.rule_of_loops(&set_up) } else { g.rule(&set_up) };
        let Ok(table) = Table::of_rule(&set_up, &rule) else { continue };
        let raw = if g.once_in(6) { g.device(&set_up) } else { g.device_near(&set_up, &table) };
        let device = raw.lent().device(&set_up).unwrap();
        let verdict = trial(&set_up, (&device, raw.start), (&table, 0));
        let (mut sets, mut words, mut all_same) = (u64::MAX, Vec::new(), true);
        for line in lines_of_set_up(&set_up) {
            let (device, table) = (table_of_line(&four, &device, line), table_of_line(&four, &table, line));
            sets &= satisfying(&four, &rule_of_line(&four, &rule, line), &device);
            match trial(&four, (&device, raw.start), (&table, 0)) {
                Verdict::Passes(grade) => all_same &= grade == Grade::Same,
                Verdict::Fails(word) => words.push(word),
            }
        }
        assert_eq!(satisfying(&set_up, &rule, &device), sets, "seed {seed}");
        of_one_line += usize::from(words.len() == 1);
        let expected = match words.into_iter().min_by_key(|word| (word.len(), word.clone())) {
            Some(word) => Verdict::Fails(word),
            None if all_same => Verdict::Passes(Grade::Same),
            None => Verdict::Passes(Grade::Stricter),
        };
        assert_eq!(verdict, expected, "seed {seed}");
        match verdict {
            Verdict::Passes(Grade::Same) => same += 1,
            Verdict::Passes(Grade::Stricter) => stricter += 1,
            Verdict::Fails(_) => fails += 1,
        }
    }
    let counts = [same, stricter, fails, of_one_line];
    assert!(counts.iter().all(|&count| count > 50), "same, stricter, fails, fails on one line: {counts:?}");
}

/// With one line a register is the four-value set: the same rules, written the same.
#[test]
fn one_line_is_the_four_value_set() {
    let mut written = 0;
    for seed in seeds(300) {
        let mut g = Generator::new(seed);
        let set_up = register(g.between(1, 3), 1);
        let four = common::four(set_up.events());
        let raw = if g.once_in(2) { g.chain(&set_up) } else { g.table(&set_up) };
        let table = raw.lent().table(&set_up).unwrap();
        let of_register = characteristic::rule_of(&table, raw.start);
        let of_four = characteristic::rule_of(&table_of_line(&four, &table, 0), raw.start);
        let of_line = of_register.map(|rule| rule_of_line(&four, &rule, 0));
        assert_eq!(of_line, of_four, "seed {seed}");
        written += usize::from(of_four.is_ok());
        let (first, second) = g.pair_of_rules(&set_up);
        let covered = covers(set_up.raw(), &first.to_bytes(), &second.to_bytes());
        let [first, second] = [first, second].map(|rule| rule_of_line(&four, &rule, 0).to_bytes());
        assert_eq!(covered, covers(four.raw(), &first, &second), "seed {seed}");
    }
    assert!(written > 100, "{written}");
}
