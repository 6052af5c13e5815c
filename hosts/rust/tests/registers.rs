//! Compile of a rule in bytes for both kinds of values, a register's trial and rule, and the three calls on a register's channel file:
//! accepted calls, each refusal, and what a call leaves in a lent buffer.

use std::fmt::Debug;

use gurvazze::{
    compile, register_compile, register_replay, register_rule, register_table, register_trial, register_trial_of_table,
};
use gurvazze::{Grade, Masks, Refusal, Register, RegisterTableNumbers, SetUp, Table, Verdict, WORD_BYTES};

/// Two events and the four-value set.
const FOUR: SetUp<'static> = SetUp { events: 2, values: 4, top: 3, meet: &[0, 0, 0, 0, 0, 1, 0, 1, 0, 0, 2, 2, 0, 1, 2, 3] };

/// Two events and two lines.
const TWO_LINES: Register = Register { events: 2, lines: 2 };

/// One event and two lines.
const ONE_EVENT: Register = Register { events: 1, ..TWO_LINES };

const OPEN: Masks = Masks { low: 3, high: 3 };
const LOW: Masks = Masks { low: 3, high: 0 };

/// Old contents of a lent buffer.
const OLD: u8 = 170;

/// The call is refused so, and leaves a buffer of so many bytes as it was.
fn refused<T: Debug>(length: usize, number: u8, place: Option<usize>, call: impl Fn(&mut [u8]) -> Result<T, Refusal>) {
    let mut buffer = vec![OLD; length];
    assert_eq!(call(&mut buffer).unwrap_err(), Refusal { number, place });
    assert!(buffer.iter().all(|&byte| byte == OLD), "{number} wrote");
}

/// The call yields this and puts these bytes at the front of a buffer that has two bytes more.
fn puts<T: Debug + PartialEq>(yields: T, output: &[u8], call: impl Fn(&mut [u8]) -> Result<T, Refusal>) {
    let mut buffer = vec![OLD; output.len() + 2];
    assert_eq!(call(&mut buffer), Ok(yields));
    assert_eq!(buffer, [output, &[OLD; 2]].concat());
}

/// Nodes of kind, first number and value, as one byte or as a low mask and no high one.
fn numbered(nodes: &[[u8; 3]]) -> Vec<u8> {
    nodes.concat()
}

fn of_register(nodes: &[[u8; 3]]) -> Vec<u8> {
    nodes.iter().flat_map(|&[kind, first, value]| [kind, first, value, 0, 0, 0]).collect()
}

const T: [u8; 3] = [0, 0, 0];
const A: [u8; 3] = [4, 0, 0];
const V: [u8; 3] = [5, 0, 0];
const X0: [u8; 3] = [1, 0, 0];
const G0: [u8; 3] = [2, 0, 0];

/// Rules that both kinds refuse, with the refusal's number and place: of values below 4, and of two lines.
fn refused_rules() -> Vec<(Vec<[u8; 3]>, u8, Option<usize>)> {
    let loops = [vec![A, V], vec![G0; 16], vec![X0, V], vec![G0; 17], vec![X0]].concat();
    vec![
        (vec![], 5, None),
        (vec![T; 257], 5, None),
        (vec![[6, 0, 0]], 6, Some(0)),
        (vec![A, T, [0, 1, 0]], 6, Some(2)),
        (vec![A, [0, 0, 1], T], 6, Some(1)),
        (vec![V, G0, [1, 0, 1]], 6, Some(2)),
        (vec![[2, 0, 1], T], 6, Some(0)),
        (vec![[2, 2, 0], T], 6, Some(0)),
        (vec![[3, 2, 0]], 6, Some(0)),
        (vec![[3, 1, 4]], 6, Some(0)),
        (vec![[4, 0, 1], T, T], 6, Some(0)),
        (vec![[5, 0, 1], T], 6, Some(0)),
        (vec![A, T], 7, Some(2)),
        (vec![T, T], 7, Some(1)),
        (vec![V, G0, [1, 1, 0]], 8, Some(2)),
        ([vec![V; 13], vec![T]].concat(), 23, None),
        (vec![V, X0], 9, Some(1)),
        (loops, 10, None),
    ]
}

#[test]
fn compiled() {
    // O1.1
    puts(2, &[3, 1, 1, 1, 3, 1, 3, 1], |to| compile(FOUR, &[3, 1, 1], to));
    for (nodes, number, place) in refused_rules() {
        refused(8192, number, place, |to| compile(FOUR, &numbered(&nodes), to));
    }
    refused(8192, 5, None, |to| compile(FOUR, &[0, 0, 0, 0], to));
    refused(3, 13, None, |to| compile(FOUR, &numbered(&[T]), to));
    for events in [0, 17] {
        refused(9, 1, None, |to| compile(SetUp { events, values: 0, ..FOUR }, &[], to));
    }
    for values in [0, 3, 17] {
        refused(9, 2, None, |to| compile(SetUp { values, meet: &[], ..FOUR }, &[], to));
    }
    refused(9, 3, None, |to| compile(SetUp { meet: &FOUR.meet[..15], ..FOUR }, &[], to));
}

#[test]
fn register_compiled() {
    let high = Masks { low: 0, high: 3 };
    // O1 with both lines high
    let output = [OPEN.entry(1), high.entry(1), OPEN.entry(1), OPEN.entry(1)].concat();
    puts(2, &output, |to| register_compile(TWO_LINES, &high.node(1), to));
    // What both demand: both lines in conflict.
    let both = [&[4, 0, 0, 0, 0, 0][..], &high.node(0), &LOW.node(0)].concat();
    puts(2, &[Masks { low: 0, high: 0 }.entry(1), OPEN.entry(1)].concat(), |to| register_compile(ONE_EVENT, &both, to));
    for (nodes, number, place) in refused_rules() {
        refused(20_480, number, place, |to| register_compile(TWO_LINES, &of_register(&nodes), to));
    }
    for more in 1..6 {
        refused(20_480, 5, None, |to| register_compile(TWO_LINES, &vec![0; 6 + more], to));
    }
    refused(9, 13, None, |to| register_compile(TWO_LINES, &of_register(&[T]), to));
    for events in [0, 17] {
        refused(9, 1, None, |to| register_compile(Register { events, lines: 0 }, &[], to));
    }
    for lines in [0, 17, 256, 65_537, usize::MAX] {
        refused(9, 20, None, |to| register_compile(Register { lines, ..TWO_LINES }, &[], to));
    }
}

/// Each bit of the masks: those of lines are a value's, in an O node only; each other is 6 in a rule and 11 in a table.
#[test]
fn each_line() {
    for lines in 1..=16 {
        let register = Register { events: 1, lines };
        let all = u16::MAX >> (16 - lines);
        let top = Masks { low: all, high: all };
        for bit in 0..16 {
            for value in [Masks { low: 1 << bit, high: 0 }, Masks { low: 0, high: 1 << bit }] {
                let table = Table { states: 1, start: 0, bytes: &value.entry(0) };
                if bit < lines {
                    puts(2, &[value.entry(1), top.entry(1)].concat(), |to| register_compile(register, &value.node(0), to));
                    let rule = [of_register(&[V, A, G0, X0]), value.node(0).to_vec()].concat();
                    puts(5, &rule, |to| register_rule(register, table, to));
                } else {
                    refused(99, 6, Some(0), |to| register_compile(register, &value.node(0), to));
                    refused(99, 11, None, |to| register_rule(register, table, to));
                }
                let mut unused = value.node(0);
                unused[0] = 0;
                refused(99, 6, Some(0), |to| register_compile(register, &unused, to));
            }
        }
    }
}

/// A chain of states whose last returns to itself, open everywhere.
fn chain(states: usize) -> Vec<u8> {
    (0..states).flat_map(|state| OPEN.entry((state + 1).min(states - 1) as u8)).collect()
}

/// Tables over one event and two lines that are none, with their states and start: 11.
fn refused_tables() -> Vec<(usize, usize, Vec<u8>)> {
    vec![
        (0, 0, vec![]),
        (1, 1, chain(1)),
        (2, 0, chain(1)),
        (1, 0, chain(2)),
        (1, 0, chain(1)[..4].to_vec()),
        (1, 0, [chain(1), vec![0]].concat()),
        (1, 0, Masks { low: 4, high: 0 }.entry(0).to_vec()),
        (1, 0, Masks { low: 0, high: 4 }.entry(0).to_vec()),
        (1, 0, Masks { low: 0x100, high: 0 }.entry(0).to_vec()),
        (1, 0, Masks { low: 0, high: 0x8000 }.entry(0).to_vec()),
        (1, 0, OPEN.entry(1).to_vec()),
        (257, 0, chain(257)),
    ]
}

#[test]
fn register_tried() {
    let device = [LOW.entry(1), OPEN.entry(1)].concat();
    let device = Table { states: 2, start: 0, bytes: &device };
    let tried = |states: usize, table: &[u8], device: Table<'_>| {
        let mut word = vec![OLD; WORD_BYTES];
        (register_trial_of_table(ONE_EVENT, states, table, device, &mut word), word)
    };
    let as_before = vec![OLD; WORD_BYTES];
    assert_eq!(tried(2, device.bytes, device), (Ok(Verdict::Pass(Grade::Same)), as_before.clone()));
    assert_eq!(tried(1, &OPEN.entry(0), device), (Ok(Verdict::Pass(Grade::Stricter)), as_before.clone()));
    assert_eq!(tried(1, &OPEN.entry(0), Table { start: 1, ..device }), (Ok(Verdict::Pass(Grade::Same)), as_before.clone()));
    let with_word = [&[0, 0][..], &as_before[2..]].concat();
    assert_eq!(tried(1, &LOW.entry(0), device), (Ok(Verdict::Fail(2)), with_word));

    for (states, start, bytes) in refused_tables() {
        let none = Table { states, start, bytes: &bytes };
        refused(WORD_BYTES, 11, None, |word| register_trial_of_table(ONE_EVENT, 1, &OPEN.entry(0), none, word));
        if start == 0 {
            refused(WORD_BYTES, 11, None, |word| register_trial_of_table(ONE_EVENT, states, &bytes, device, word));
        }
    }
    // A device has 64 states, a table 256.
    for states in [64, 65, 256] {
        let long = chain(states);
        let as_device = tried(1, &OPEN.entry(0), Table { states, start: 0, bytes: &long }).0;
        assert_eq!(as_device.is_ok(), states == 64, "{states} states");
        assert_eq!(tried(states, &long, device).0, Ok(Verdict::Pass(Grade::Stricter)));
    }
    let with = |register: Register, word: &mut [u8]| register_trial_of_table(register, 1, &OPEN.entry(0), device, word);
    refused(WORD_BYTES - 1, 13, None, |word| with(ONE_EVENT, word));
    for events in [0, 17] {
        refused(9, 1, None, |word| with(Register { events, lines: 0 }, word));
    }
    for lines in [0, 17, 256, usize::MAX] {
        refused(9, 20, None, |word| with(Register { events: 16, lines }, word));
    }
}

#[test]
fn register_written() {
    let two = [LOW.entry(1), OPEN.entry(0)].concat();
    let from_0 = [of_register(&[V, A, G0, V, A, G0, [1, 1, 0]]), OPEN.node(0).to_vec(), LOW.node(0).to_vec()].concat();
    let from_1 = [of_register(&[V, A, G0, V, A, G0, [1, 1, 0]]), LOW.node(0).to_vec(), OPEN.node(0).to_vec()].concat();
    for (start, output) in [(0, from_0), (1, from_1)] {
        let table = Table { states: 2, start, bytes: &two };
        puts(9, &output, |to| register_rule(ONE_EVENT, table, to));
        refused(53, 13, None, |to| register_rule(ONE_EVENT, table, to));
    }
    for (states, start, bytes) in refused_tables() {
        refused(1536, 11, None, |to| register_rule(ONE_EVENT, Table { states, start, bytes: &bytes }, to));
    }
    for (states, number) in [(13, 23), (63, 23), (64, 12), (256, 12)] {
        refused(0, number, None, |to| register_rule(ONE_EVENT, Table { states, start: 0, bytes: &chain(states) }, to));
    }
    let with = |register: Register, to: &mut [u8]| register_rule(register, Table { states: 0, start: 0, bytes: &[] }, to);
    for events in [0, 17] {
        refused(9, 1, None, |to| with(Register { events, lines: 0 }, to));
    }
    for lines in [0, 17, 256, usize::MAX] {
        refused(9, 20, None, |to| with(Register { events: 1, lines }, to));
    }
}

/// A register's channel file.
fn file(register: Register, items: &str) -> Vec<u8> {
    format!("events={}\nlines={}\nrule={items}\n", register.events, register.lines).into_bytes()
}

/// The items of nodes of kind, first number and value, the value as a low mask.
fn items(nodes: &[[u8; 3]]) -> String {
    let item = |&[kind, first, value]: &[u8; 3]| match kind {
        0 => "T".to_string(),
        1 => format!("X{first}"),
        2 => format!("G{first}"),
        3 => format!("O{first}.{value}.0"),
        4 => "A".to_string(),
        _ => "V".to_string(),
    };
    nodes.iter().map(item).collect::<Vec<String>>().join(" ")
}

/// Register files that are refused, with the refusal's number and place.
fn refused_files() -> Vec<(Vec<u8>, u8, Option<usize>)> {
    // What a file cannot say is left out: no nodes, an unknown kind, an unused field.
    let unused = |&[kind, first, value]: &[u8; 3]| match kind {
        1 | 2 => value > 0,
        3 => false,
        0 | 4 | 5 => (first, value) != (0, 0),
        _ => true,
    };
    let rules = refused_rules().into_iter().filter(|(nodes, ..)| !nodes.is_empty() && !nodes.iter().any(unused));
    let mut files: Vec<_> = rules.map(|(nodes, number, place)| (file(TWO_LINES, &items(&nodes)), number, place)).collect();
    let head = file(TWO_LINES, "").len() - 1;
    // The form: what ends early, document 01's lines and O tokens, leading zeros and a sixth digit.
    for (items, place) in
        [("", 0), ("O0.1", 4), ("O0.1.", 5), ("O0.01.1", 4), ("O0.1.01", 6), ("O0.100000.1", 8), ("O0.1.1.1", 6)]
    {
        files.push((file(TWO_LINES, items), 4, Some(head + place)));
    }
    files.push((b"events=2\nvalues=4\ntop=3\nmeet=0\nrule=T\n".to_vec(), 4, Some(9)));
    files.push((vec![b'e'; 4097], 4, Some(4096)));
    for events in [0, 17, 257, 999] {
        files.push((file(Register { events, lines: 0 }, "A"), 1, None));
    }
    for lines in [0, 17, 256, 258, 999] {
        files.push((file(Register { lines, ..TWO_LINES }, "A"), 20, None));
    }
    // Masks of no 16 bits are no masks of 16 lines either.
    for items in ["A T O0.65536.0", "A T O0.0.65536", "A T O0.65537.1", "A T O0.99999.99999"] {
        files.push((file(Register { lines: 16, ..TWO_LINES }, items), 6, Some(2)));
    }
    files
}

/// What a file meets comes before what events, devices and short buffers meet.
#[test]
fn files_refused() {
    for (text, number, place) in refused_files() {
        refused(20_480, number, place, |to| register_table(&text, to));
        refused(0, number, place, |to| register_replay(&text, &[255], to));
        refused(0, number, place, |word| register_trial(&text, Table { states: 0, start: 0, bytes: &[] }, word));
    }
}

/// Two lines on event 1 that are low, then high, then open for ever.
const LOW_THEN_HIGH: &str = "A O1.3.0 G1 O1.0.3";

#[test]
fn tables_of_files() {
    let text = file(TWO_LINES, LOW_THEN_HIGH);
    let high = Masks { low: 0, high: 3 };
    let output = [OPEN.entry(1), LOW.entry(2), OPEN.entry(1), OPEN.entry(1), OPEN.entry(1), high.entry(1)].concat();
    puts(RegisterTableNumbers { states: 3, events: 2, lines: 2 }, &output, |to| register_table(&text, to));
    refused(29, 13, None, |to| register_table(&text, to));
    // Numbers at their ends.
    for register in [Register { events: 1, lines: 1 }, Register { events: 16, lines: 16 }] {
        let all = u16::MAX >> (16 - register.lines);
        let output = Masks { low: all, high: all }.entry(0).repeat(register.events);
        let numbers = RegisterTableNumbers { states: 1, events: register.events, lines: register.lines };
        puts(numbers, &output, |to| register_table(&file(register, "T"), to));
    }
    let steps = |count: usize| file(ONE_EVENT, &("G0 ".repeat(count) + "T"));
    for states in [64, 65, 256] {
        let numbers = RegisterTableNumbers { states, events: 1, lines: 2 };
        puts(numbers, &chain(states), |to| register_table(&steps(states - 1), to));
    }
}

#[test]
fn replayed() {
    let text = file(TWO_LINES, LOW_THEN_HIGH);
    let high = Masks { low: 0, high: 3 };
    let values = [LOW, high, OPEN, OPEN].map(Masks::to_bytes).concat();
    puts((), &values, |to| register_replay(&text, &[1, 1, 0, 1], to));
    puts((), &[], |to| register_replay(&text, &[], to));
    refused(15, 13, None, |to| register_replay(&text, &[1, 1, 0, 1], to));
    refused(4, 13, None, |to| register_replay(&text, &[0; 4], to));
    // 16 over all events, before 13.
    for word in [[2, 0, 0], [0, 0, 2], [0, 255, 0]] {
        refused(0, 16, None, |to| register_replay(&text, &word, to));
    }
    // Each byte of both masks, by a table of 3 states and one of 130.
    let value = Masks { low: 0x0201, high: 0x0403 };
    let sixteen = Register { events: 1, lines: 16 };
    for steps in [1, 128] {
        let text = file(sixteen, &("G0 ".repeat(steps) + "O0.513.1027"));
        let mut values = vec![255; 4 * (steps + 2)];
        values[4 * steps..4 * steps + 4].copy_from_slice(&value.to_bytes());
        puts((), &values, |to| register_replay(&text, &vec![0; steps + 2], to));
    }
}

#[test]
fn tried_by_files() {
    let device = [LOW.entry(1), OPEN.entry(1)].concat();
    let device = Table { states: 2, start: 0, bytes: &device };
    let tried = |items: &str, device: Table<'_>| {
        let mut word = vec![OLD; WORD_BYTES];
        (register_trial(&file(ONE_EVENT, items), device, &mut word), word)
    };
    let as_before = vec![OLD; WORD_BYTES];
    let with_word = |length: usize| [&vec![0; length][..], &as_before[length..]].concat();
    // The second text has a table of 65 states.
    for open in ["T".to_string(), "G0 ".repeat(64) + "T"] {
        assert_eq!(tried(&open, device), (Ok(Verdict::Pass(Grade::Stricter)), as_before.clone()));
        assert_eq!(tried(&open, Table { start: 1, ..device }), (Ok(Verdict::Pass(Grade::Same)), as_before.clone()));
        for (states, start, bytes) in refused_tables() {
            let none = Table { states, start, bytes: &bytes };
            refused(0, 11, None, |word| register_trial(&file(ONE_EVENT, &open), none, word));
        }
        refused(WORD_BYTES - 1, 13, None, |word| register_trial(&file(ONE_EVENT, &open), device, word));
        let long = chain(65);
        assert_eq!(tried(&open, Table { states: 64, start: 0, bytes: &chain(64) }).0, Ok(Verdict::Pass(Grade::Same)));
        refused(0, 11, None, |word| {
            register_trial(&file(ONE_EVENT, &open), Table { states: 65, start: 0, bytes: &long }, word)
        });
    }
    assert_eq!(tried("O0.3.0", device), (Ok(Verdict::Pass(Grade::Same)), as_before.clone()));
    assert_eq!(tried("G0 O0.3.0", device), (Ok(Verdict::Fail(2)), with_word(2)));
    assert_eq!(tried("O0.0.3", device), (Ok(Verdict::Fail(1)), with_word(1)));
    assert_eq!(tried(&("G0 ".repeat(64) + "O0.3.0"), device), (Ok(Verdict::Fail(65)), with_word(65)));
}
