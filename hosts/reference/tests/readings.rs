//! The order and the places of refusals, and other points that are easily missed.

mod common;

use common::{bytes, file, four, joined_loops, reading, rule, steps, table, WHEEL};
use gurvazze_reference::channel_file::{self, lines, read, tokens};
use gurvazze_reference::formula::{Formulas, Rule};
use gurvazze_reference::generate::{inner_binders, under, RawTable};
use gurvazze_reference::table::{compile, Entry, Lent, Table};
use gurvazze_reference::tool::{Call, Channel, Log, Tool, Wheel, MAX_TOTAL};
use gurvazze_reference::trial::{satisfying, trial, trial_of_rule, trial_of_table, Grade, Outcome, Verdict, WORD_BYTES};
use gurvazze_reference::values::{Comparison, RawSetUp, SetUp, Value, FOUR_VALUES};
use gurvazze_reference::{characteristic, render, Refusal};

fn refused(number: u8) -> Refusal {
    Refusal::new(number)
}

#[test]
fn each_refusal_of_a_rule_is_tested_over_the_whole_rule_before_the_next() {
    let set_up = four(2);
    for (items, number, place) in [
        ("V A X0 G0 X5", 8, 4),
        ("V A G0 X5 X0", 8, 3),
        ("T G9", 6, 1),
        ("A T G2", 6, 2),
        ("A T O0.4", 6, 2),
        ("O2.0", 6, 0),
        ("X3 G2 T", 6, 1),
        ("X0 T", 7, 1),
        ("A X0", 7, 2),
        ("G0", 7, 1),
        ("V V", 7, 2),
        ("T X0 A", 7, 1),
        ("G0 X0", 8, 1),
        ("V G0 X1", 8, 2),
        ("A V G0 X0 G0 X0", 8, 5),
        ("V A T X0", 9, 3),
        ("V A G0 A X0 T X0", 9, 6),
        ("V V X1", 9, 2),
        ("V G0 V X0", 9, 3),
        ("V A G0 X0 X0", 9, 4),
        ("V G0 V V X1", 9, 4),
        ("V G0 V A X1 A X0 G0 X0", 9, 6),
        ("V G0 A T V A T X0", 9, 7),
        ("V G0 V A X0 G0 X9", 8, 6),
    ] {
        assert_eq!(rule(&set_up, items), Err(Refusal::at(number, place)), "{items}");
    }
    for items in [
        "V G0 X0",
        "V G0 A X0 X0",
        "V V G0 A X0 X1",
        "V A T G0 A T A X0 O0.1",
        "V G0 V G0 A X0 X1",
        // Under inner binders (document 02, F-2).
        "V G0 V X1",
        "V G0 V V X2",
        "V V G0 V A X1 X2",
        "V G0 A T V A T X1",
        "V G0 V A X1 G0 X0",
        "V G0 V G0 V A X2 X1",
    ] {
        assert!(rule(&set_up, items).is_ok(), "{items}");
    }
}

#[test]
fn five_counts_bytes() {
    let set_up = four(2);
    for length in [0, 1, 2, 4, 5, 767, 769, 770, 771] {
        assert_eq!(Rule::from_bytes(&set_up, &vec![0; length]), Err(refused(5)), "{length}");
        assert_eq!(Rule::from_bytes(&set_up, &vec![9; length]), Err(refused(5)), "{length}");
    }
    assert_eq!(Rule::from_bytes(&set_up, &vec![0; 768]), Err(Refusal::at(7, 1)));
}

#[test]
fn unused_fields_are_zero() {
    let set_up = four(2);
    for node in [[0, 1, 0], [0, 0, 1], [1, 0, 1], [2, 0, 1], [4, 1, 0], [4, 0, 1], [5, 1, 0], [5, 0, 1], [6, 0, 0]] {
        assert_eq!(Rule::from_bytes(&set_up, &node), Err(Refusal::at(6, 0)), "{node:?}");
    }
    // A variable's number is never too large for 6.
    assert_eq!(Rule::from_bytes(&set_up, &[1, 255, 0]), Err(Refusal::at(8, 0)));
}

#[test]
fn large_numbers_in_a_file_are_judged_in_the_usual_order() {
    for (items, expected) in [
        ("X256", "8 0"),
        ("X999", "8 0"),
        ("V G0 X256", "8 2"),
        ("G300 T", "6 0"),
        ("G256 T", "6 0"),
        ("O300.1", "6 0"),
        ("O0.300", "6 0"),
        ("O256.256", "6 0"),
        ("A O9.9 G300 T", "6 1"),
        ("A X999 G300 T", "6 2"),
        ("A X999", "7 2"),
        ("X999 T", "7 1"),
        ("V A X0 G0 X256", "8 4"),
        ("G255 T", "6 0"),
        ("X255", "8 0"),
    ] {
        assert_eq!(render::program(&file(items)), format!("refused={expected}\n"), "{items}");
    }
    let many = vec!["G999"; 257].join(" ");
    assert_eq!(render::program(&file(&many)), "refused=5\n");
}

#[test]
fn most_binders() {
    let set_up = four(2);
    // Twelve binders, a G and the variable of the outermost; then of none.
    assert_eq!(table(&set_up, &under(12, "G0 X11")).unwrap().states(), 2);
    assert_eq!(rule(&set_up, &under(12, "G0 X12")), Err(Refusal::at(8, 13)));
    // As many as 256 nodes have: 8 comes before 23, and 23 before 9.
    assert_eq!(rule(&set_up, &under(254, "G0 X253")), Err(refused(23)));
    assert_eq!(rule(&set_up, &under(254, "G0 X254")), Err(Refusal::at(8, 255)));
    assert_eq!(rule(&set_up, &under(255, "X254")), Err(refused(23)));
    assert_eq!(rule(&set_up, &under(255, "X255")), Err(Refusal::at(8, 255)));
}

#[test]
fn set_ups() {
    let raw = |events, values, top, meet: &[u8]| RawSetUp::numbers(events, values, top, meet.to_vec());
    assert_eq!(raw(1, 1, 0, &[0]).check(), Ok(()));
    assert_eq!(raw(16, 1, 0, &[0]).check(), Ok(()));
    assert_eq!(raw(0, 0, 0, &[]).check(), Err(refused(1)));
    assert_eq!(raw(17, 1, 0, &[0]).check(), Err(refused(1)));
    assert_eq!(raw(258, 1, 0, &[0]).check(), Err(refused(1)));
    assert_eq!(raw(1, 0, 0, &[]).check(), Err(refused(2)));
    assert_eq!(raw(1, 17, 0, &[0; 289]).check(), Err(refused(2)));
    assert_eq!(raw(1, 1, 1, &[0]).check(), Err(refused(2)));
    assert_eq!(raw(1, 1, 0, &[]).check(), Err(refused(3)));
    assert_eq!(raw(1, 1, 0, &[0, 0]).check(), Err(refused(3)));
    assert_eq!(raw(1, 1, 0, &[1]).check(), Err(refused(3)));
    assert_eq!(raw(1, 2, 1, &[0, 0, 0, 1]).check(), Ok(()));
    assert_eq!(raw(1, 2, 0, &[0, 0, 0, 1]).check(), Err(refused(3)), "0 is not neutral");
    assert_eq!(raw(1, 2, 0, &[0, 1, 1, 1]).check(), Ok(()));
    assert_eq!(raw(1, 2, 1, &[1, 0, 0, 1]).check(), Err(refused(3)), "not idempotent");
    assert_eq!(raw(1, 3, 2, &[0, 0, 0, 1, 1, 1, 0, 1, 2]).check(), Err(refused(3)), "not commutative");
    // Idempotent, commutative and neutral, but 0 meet (1 meet 2) = 0, (0 meet 1) meet 2 = 1.
    let rounds = [0, 1, 0, 0, 1, 1, 2, 1, 0, 2, 2, 2, 0, 1, 2, 3];
    assert_eq!(raw(1, 4, 3, &rounds).check(), Err(refused(3)), "not associative");
    assert!(SetUp::new(RawSetUp::four_values(2)).is_ok());
}

#[test]
fn the_four_value_set() {
    let set_up = four(2);
    let compared = |wanted: Comparison| -> Vec<(Value, Value)> {
        (0..4).flat_map(|b| (0..4).map(move |c| (b, c))).filter(|&(b, c)| set_up.compare(b, c) == wanted).collect()
    };
    assert_eq!(compared(Comparison::Equal), [(0, 0), (1, 1), (2, 2), (3, 3)]);
    assert_eq!(compared(Comparison::StrictlyBelow), [(0, 1), (0, 2), (0, 3), (1, 3), (2, 3)]);
    assert_eq!(compared(Comparison::NotBelow), [(1, 0), (1, 2), (2, 0), (2, 1), (3, 0), (3, 1), (3, 2)]);
}

#[test]
fn numbers_of_the_first_lines_do_not_wrap() {
    let program = |events: &str, values: &str, top: &str, meet: &str| {
        render::program(format!("events={events}\nvalues={values}\ntop={top}\nmeet={meet}\nrule=T\n").as_bytes())
    };
    assert_eq!(program("1", "1", "0", "0"), "events=1\nstates=1\nrow=0 0 0 0\n");
    assert_eq!(program("258", "1", "0", "0"), "refused=1\n");
    assert_eq!(program("257", "257", "256", "256"), "refused=1\n");
    assert_eq!(program("1", "257", "0", "0"), "refused=2\n");
    assert_eq!(program("1", "4", "259", "0"), "refused=2\n");
    assert_eq!(program("1", "1", "0", "256"), "refused=3\n");
    assert_eq!(program("1", "1", "0", "0 0"), "refused=3\n");
    assert_eq!(program("1", "1", "0", &vec!["0"; 1000].join(" ")), "refused=3\n");
}

#[test]
fn places_of_refusal_4() {
    let place = |text: &[u8]| lines(text).map(|_| ()).map_err(|refusal| (refusal.number, refusal.place));
    let at = |place: usize| Err((4, Some(place)));
    assert_eq!(place(b""), at(0));
    assert_eq!(place(b"e"), at(1));
    assert_eq!(place(b"Events=2\n"), at(0));
    assert_eq!(place(b"events=2\r\n"), at(8));
    assert_eq!(place(b"events=2\t\n"), at(8));
    assert_eq!(place(b"events=2\0\n"), at(8));
    assert_eq!(place(b"events=\xff\n"), at(7));
    assert_eq!(place(b"events=\n"), at(7));
    assert_eq!(place(b"events= 2\n"), at(7));
    assert_eq!(place(b"events=2 \n"), at(8));
    assert_eq!(place(b"events=01\n"), at(8));
    assert_eq!(place(b"events=00\n"), at(8));
    assert_eq!(place(b"events=999\n"), at(11));
    assert_eq!(place(b"events=1000\n"), at(10));
    assert_eq!(place(b"events=-1\n"), at(7));
    assert_eq!(place(b"events=2"), at(8));
    assert_eq!(place(b"events=2\n"), at(9));
    assert_eq!(place(b"events=2\n\n"), at(9));
    assert_eq!(place(b"events=2\ntop=1\n"), at(9));

    let start = b"events=2\nvalues=1\ntop=0\n";
    let with = |rest: &[u8]| place(&[&start[..], rest].concat());
    let after = |offset: usize| at(start.len() + offset);
    assert_eq!(with(b"meet=\nrule=T\n"), after(5));
    assert_eq!(with(b"meet=0  0\nrule=T\n"), after(7));
    assert_eq!(with(b"meet=0 \nrule=T\n"), after(7));
    assert_eq!(with(b"meet= 0\nrule=T\n"), after(5));
    assert_eq!(with(b"meet=0,0\nrule=T\n"), after(6));
    assert_eq!(with(b"meet=0 01\nrule=T\n"), after(8));

    let start = b"events=2\nvalues=1\ntop=0\nmeet=0\n";
    let with = |rest: &[u8]| place(&[&start[..], rest].concat());
    let after = |offset: usize| at(start.len() + offset);
    assert_eq!(with(b"rule=\n"), after(5));
    assert_eq!(with(b"rule=T \n"), after(7));
    assert_eq!(with(b"rule= T\n"), after(5));
    assert_eq!(with(b"rule=T  T\n"), after(7));
    assert_eq!(with(b"rule=T1\n"), after(6));
    assert_eq!(with(b"rule=t\n"), after(5));
    assert_eq!(with(b"rule=X\n"), after(6));
    assert_eq!(with(b"rule=X 0\n"), after(6));
    assert_eq!(with(b"rule=X01\n"), after(7));
    assert_eq!(with(b"rule=X1000\n"), after(9));
    assert_eq!(with(b"rule=G1.1\n"), after(7));
    assert_eq!(with(b"rule=O1\n"), after(7));
    assert_eq!(with(b"rule=O1 1\n"), after(7));
    assert_eq!(with(b"rule=O1.\n"), after(8));
    assert_eq!(with(b"rule=O1.1.1\n"), after(9));
    assert_eq!(with(b"rule=O.1\n"), after(6));
    assert_eq!(with(b"rule=O01.1\n"), after(7));
    assert_eq!(with(b"rule=T"), after(6));
    assert_eq!(with(b"rule=T\n"), Ok(()));
    assert_eq!(with(b"rule=T\n\n"), after(7));
    assert_eq!(with(b"rule=T\nx"), after(7));
    assert_eq!(with(b"rule=X999 G999 O999.999 A V T\n"), Ok(()));
}

#[test]
fn the_length_limit_is_tested_first() {
    assert_eq!(render::program(&[b'?'; 4097]), "refused=4 4096\n");
    assert_eq!(render::program(&[b'?'; 4096]), "refused=4 0\n");
    // In the form but for its length, and ending early at the limit.
    let text = |items: usize| file(&vec!["T"; items].join(" "));
    let short = text(1).len();
    assert_eq!(short % 2, 0);
    let at_limit = text(1 + (4096 - short) / 2);
    assert_eq!((at_limit.len(), lines(&at_limit).is_ok()), (4096, true));
    assert_eq!(render::program(&at_limit), "refused=5\n");
    let over = text(2 + (4096 - short) / 2);
    assert_eq!((over.len(), lines(&over)), (4098, Err(Refusal::at(4, 4096))));
    assert_eq!(lines(&over[..4096]), Err(Refusal::at(4, 4096)));
    assert_eq!(tokens(&over), b"");
}

#[test]
fn tokens_are_a_stretch_of_the_text() {
    let text = file("X0 G300");
    let stretch = tokens(&text);
    assert_eq!(stretch, b"X0 G300");
    assert_eq!(stretch.as_ptr_range().end, text[..text.len() - 1].as_ptr_range().end);
    assert!(tokens(&file("X0 ")).is_empty());
    assert!(tokens(b"").is_empty());
}

#[test]
fn the_empty_set_is_a_state() {
    assert_eq!(table(&four(1), "V G0 X0").unwrap().states(), 1);
    assert_eq!(table(&four(2), "V G0 X0").unwrap().states(), 2);
}

#[test]
fn thirteen_is_last() {
    let raw = RawSetUp::four_values(2);
    let over = bytes(&joined_loops(16, 17));
    assert_eq!(compile(&raw, &over, &mut []), Err(refused(10)));
    assert_eq!(compile(&raw, &bytes("T"), &mut [7; 3]), Err(refused(13)));
    let mut lent = [7; 6];
    assert_eq!(compile(&raw, &bytes("T"), &mut lent), Ok(1));
    assert_eq!(lent, [3, 0, 3, 0, 7, 7]);

    let one = RawSetUp::four_values(1);
    let chain = RawTable::chain(64, 1);
    let chain = chain.lent();
    assert_eq!(characteristic::write_rule(&one, chain, &mut []), Err(refused(12)));
    assert_eq!(characteristic::write_rule(&one, Lent { start: 51, ..chain }, &mut []), Err(refused(23)));
    assert_eq!(characteristic::write_rule(&one, Lent { start: 52, ..chain }, &mut [7; 146]), Err(refused(13)));
    let rest = Lent { start: 62, ..chain };
    assert_eq!(characteristic::write_rule(&one, rest, &mut [7; 26]), Err(refused(13)));
    let mut lent = [7; 28];
    assert_eq!(characteristic::write_rule(&one, rest, &mut lent), Ok(9));
    assert_eq!(lent[..27], bytes("V A G0 V A G0 X0 O0.1 O0.1"));
    assert_eq!(lent[27], 7);

    let closed = Lent { states: 1, start: 0, bytes: &[0, 0, 0, 0] };
    let mut word = [7; WORD_BYTES - 1];
    assert_eq!(trial_of_table(&raw, closed, 1, closed.bytes, &mut word), Err(refused(13)));
    assert_eq!(trial_of_rule(&raw, closed, &bytes("T"), &mut word), Err(refused(13)));
    assert_eq!(trial_of_rule(&raw, Lent { states: 0, ..closed }, &over, &mut word), Err(refused(10)));
    assert_eq!(trial_of_rule(&raw, Lent { states: 0, ..closed }, &bytes("T"), &mut word), Err(refused(11)));
    assert_eq!(trial_of_table(&raw, closed, 2, closed.bytes, &mut word), Err(refused(11)));
    assert_eq!(word.len(), 16_383);
    assert!(word.iter().all(|&byte| byte == 7));
    let mut word = [7; WORD_BYTES + 1];
    assert_eq!(trial_of_rule(&raw, closed, &bytes("T"), &mut word), Ok(Outcome::Passes(Grade::Stricter)));
    assert!(word.iter().all(|&byte| byte == 7));
    let open = Lent { states: 1, start: 0, bytes: &[3, 0, 3, 0] };
    assert_eq!(trial_of_rule(&raw, open, &bytes("A O0.1 O0.2"), &mut word), Ok(Outcome::Fails(1)));
    assert_eq!(word[0], 0);
    assert!(word[1..].iter().all(|&byte| byte == 7));
}

#[test]
fn files_in_lent_memory() {
    let raw = RawSetUp::four_values(2);
    let text = file("A O1.1 V G1 X0");
    let items = bytes("A O1.1 V G1 X0");
    let mut lent = vec![7; text.len() + 1];
    assert_eq!(channel_file::write(&raw, &items, &mut lent), Ok(text.len()));
    assert_eq!((&lent[..text.len()], lent[text.len()]), (&text[..], 7));
    let mut lent = vec![7; text.len() - 1];
    assert_eq!(channel_file::write(&raw, &items, &mut lent), Err(refused(13)));
    assert_eq!(channel_file::write(&raw, &bytes("X0"), &mut lent), Err(Refusal::at(8, 0)));
    assert!(lent.iter().all(|&byte| byte == 7));

    let (mut meet, mut nodes) = ([7; 17], [7; 16]);
    let sizes = channel_file::read_into(&text, &mut meet, &mut nodes).unwrap();
    assert_eq!((sizes.events, sizes.values, sizes.top, sizes.nodes), (2, 4, 3, 5));
    assert_eq!((&meet[..16], meet[16]), (&FOUR_VALUES[..], 7));
    assert_eq!((&nodes[..15], nodes[15]), (&items[..], 7));
    // 13 is tested on both buffers before either is written.
    let (mut meet, mut nodes) = ([7; 16], [7; 14]);
    assert_eq!(channel_file::read_into(&text, &mut meet, &mut nodes), Err(refused(13)));
    assert_eq!(channel_file::read_into(&text, &mut meet[..15], &mut [7; 15]), Err(refused(13)));
    assert_eq!((meet, nodes), ([7; 16], [7; 14]));
}

#[test]
fn tables_handed_in() {
    let set_up = four(2);
    let rows = [3, 1, 2, 0, 1, 1, 0, 0];
    let given = |states: usize, start: usize, bytes: &[u8]| {
        let lent = Lent { states, start, bytes };
        let made = lent.table(&set_up).map(|table: Table| table.to_bytes());
        // A device has at most 64 states (document 02, F-12).
        let of_device = if states > 64 { Err(refused(11)) } else { made.clone() };
        assert_eq!(lent.device(&set_up).map(|table| table.to_bytes()), of_device);
        made
    };
    assert_eq!(given(2, 1, &rows), Ok(rows.to_vec()));
    for (states, start, bytes) in [
        (0, 0, &rows[..0]),
        (1, 0, &rows),
        (3, 0, &rows),
        (2, 2, &rows),
        (2, 0, &rows[..7]),
        (2, 0, &rows[..6]),
        (2, 0, &[3, 1, 4, 0, 1, 1, 0, 0]),
        (2, 0, &[3, 1, 2, 0, 1, 2, 0, 0]),
        (65, 65, &[0; 260]),
        (256, 256, &[0; 1024]),
        (257, 0, &[0; 1028]),
        (257, 256, &[0; 1028]),
        (usize::MAX, 0, &rows),
    ] {
        assert_eq!(given(states, start, bytes), Err(refused(11)), "{states} {start} {bytes:?}");
    }
    for states in [64, 65, 255, 256] {
        assert!(given(states, states - 1, &vec![0; 4 * states]).is_ok(), "{states}");
        // The last state is a next state, and no other is.
        let mut rows = vec![0; 4 * states];
        rows[1] = (states - 1) as u8;
        assert!(given(states, 0, &rows).is_ok(), "{states}");
        if states < 256 {
            rows[1] += 1;
            assert_eq!(given(states, 0, &rows), Err(refused(11)), "{states}");
        }
    }
}

/// "Devices stay at 64; the rule side of a trial, writing ... take 256" (document 02, F-12).
#[test]
fn sizes_of_tables_at_the_calls() {
    let one = RawSetUp::four_values(1);
    for (states, as_device, as_table, written) in [
        (64, Ok(Outcome::Passes(Grade::Same)), Ok(Outcome::Passes(Grade::Stricter)), 12),
        (65, Err(refused(11)), Ok(Outcome::Passes(Grade::Stricter)), 12),
        (255, Err(refused(11)), Ok(Outcome::Passes(Grade::Stricter)), 12),
        (256, Err(refused(11)), Ok(Outcome::Passes(Grade::Stricter)), 12),
        (257, Err(refused(11)), Err(refused(11)), 11),
    ] {
        let chain = RawTable::chain(states, 3);
        let small = Lent { states: 1, start: 0, bytes: &[0, 0] };
        let mut word = vec![7; 16_384];
        assert_eq!(trial_of_rule(&one, chain.lent(), &bytes("T"), &mut word), as_device, "{states}");
        assert_eq!(trial_of_table(&one, chain.lent(), 1, &[3, 0], &mut word), as_device, "{states}");
        assert_eq!(trial_of_table(&one, small, states, &chain.bytes, &mut word), as_table, "{states}");
        assert_eq!(characteristic::write_rule(&one, chain.lent(), &mut []), Err(refused(written)), "{states}");
        // From the last state on it is one state long.
        let last = Lent { start: states - 1, ..chain.lent() };
        let from_last = if written == 12 { Ok(5) } else { Err(refused(11)) };
        assert_eq!(characteristic::write_rule(&one, last, &mut [0; 15]), from_last, "{states}");
    }
    // A rule of 256 states takes a device of 64, and a buffer of exactly so many bytes.
    let closed = Lent { states: 64, start: 63, bytes: &[0; 128] };
    let mut lent = [7; 513];
    assert_eq!(compile(&one, &bytes(&steps(255)), &mut lent[..511]), Err(refused(13)));
    assert_eq!(lent, [7; 513]);
    assert_eq!(compile(&one, &bytes(&steps(255)), &mut lent), Ok(256));
    assert_eq!((lent[510], lent[511], lent[512]), (3, 255, 7));
    let mut word = vec![7; 16_384];
    assert_eq!(trial_of_rule(&one, closed, &bytes(&steps(255)), &mut word), Ok(Outcome::Passes(Grade::Stricter)));
    assert_eq!(trial_of_rule(&one, closed, &bytes(&steps(255)), &mut word[1..]), Err(refused(13)));
    assert!(word.iter().all(|&byte| byte == 7));
}

/// States in a row on one event, the last of which goes back to one of them; each has one value, and the last another.
fn loop_back(states: usize, to: usize, value: u8, last: u8) -> Vec<u8> {
    let next = |state: usize| if state + 1 == states { to } else { state + 1 };
    (0..states).flat_map(|state| [if state + 1 == states { last } else { value }, next(state) as u8]).collect()
}

/// A device loop against a table's, each with one place where they disagree. In the last one the table's state 0 is not met again.
#[test]
fn long_failing_words() {
    let one = RawSetUp::four_values(1);
    for (device, start, table, to, length) in [
        (64, 0, 63, 0, 4032),
        (63, 0, 254, 0, 16_002),
        (63, 0, 256, 0, 16_128),
        (64, 0, 255, 0, 16_320),
        (64, 0, 256, 0, 256),
        (64, 63, 256, 1, 16_321),
    ] {
        let rows = loop_back(device, 0, 0, 3);
        let mut word = [7; WORD_BYTES];
        let device = Lent { states: device, start, bytes: &rows };
        let answer = trial_of_table(&one, device, table, &loop_back(table, to, 3, 0), &mut word);
        assert_eq!(answer, Ok(Outcome::Fails(length)), "{device:?} against {table} states");
        assert!(word[..length].iter().all(|&event| event == 0));
        assert!(word[length..].iter().all(|&byte| byte == 7));
    }
}

#[test]
fn order_of_refusals_on_a_tool() {
    let t = bytes("T");
    let mut tool = Tool::new(RawSetUp::four_values(2), WHEEL).unwrap();
    assert_eq!(Tool::new(RawSetUp::four_values(17), WHEEL), Err(refused(1)));
    let before = tool.clone();
    assert_eq!(tool.load(8, &[]), Err(refused(14)));
    assert_eq!(tool.load(0, &[]), Err(refused(5)));
    assert_eq!(tool.event(8, 9, 0), Err(refused(14)));
    assert_eq!(tool.event(usize::MAX, 0, 0), Err(refused(14)));
    assert_eq!(tool.event(0, 9, 0), Err(refused(15)));
    assert_eq!(tool.restart_one(8), Err(refused(14)));
    assert_eq!(tool.restart_one(7), Err(refused(15)));
    assert_eq!(tool.clear(8), Err(refused(14)));
    assert_eq!(tool.clear(7), Ok(()));
    assert_eq!(tool.restart_all(), Ok(()));
    assert_eq!(tool, before);
    assert_eq!(tool.load(0, &t), Ok(()));
    assert_eq!(tool.event(0, 2, 0), Err(refused(16)));
    assert_eq!(tool.event(0, 256, 0), Err(refused(16)));
    assert_eq!(tool.event(0, 1, 7), Ok(reading(3, 7, 0)));
    let loaded = tool.clone();
    let over = bytes(&joined_loops(16, 17));
    assert_eq!(tool.load(0, &over), Err(refused(10)));
    assert_eq!(tool, loaded);

    // 17 comes first, and looks at the named channel for every call but restart all, which looks at each loaded one.
    let mut spoilt = loaded.clone();
    spoilt.channels[0].current = 1;
    let mut calls = spoilt.clone();
    assert_eq!(calls.load(0, &t), Err(refused(17)));
    assert_eq!(calls.event(0, 9, 0), Err(refused(17)));
    assert_eq!(calls.restart_one(0), Err(refused(17)));
    assert_eq!(calls.clear(0), Err(refused(17)));
    assert_eq!(calls.restart_all(), Err(refused(17)));
    assert_eq!(calls.clear(8), Err(refused(14)));
    assert_eq!(calls.event(1, 0, 0), Err(refused(15)));
    assert_eq!(calls, spoilt);
    assert_eq!(calls.load(1, &t), Ok(()));

    for spoil in [
        |tool: &mut Tool| tool.set_up.events = 0,
        |tool: &mut Tool| tool.wheel = Wheel { pulses: 0, ..WHEEL },
        |tool: &mut Tool| tool.wheel = Wheel { millimetres: 65_536, ..WHEEL },
    ] {
        let mut spoilt = loaded.clone();
        spoil(&mut spoilt);
        assert_eq!(spoilt.load(0, &[]), Err(refused(17)));
        assert_eq!(spoilt.clear(8), Err(refused(17)));
        assert_eq!(spoilt.event(0, 0, 0), Err(refused(17)));
        assert_eq!(spoilt.restart_one(0), Err(refused(17)));
        assert_eq!(spoilt.restart_all(), Err(refused(17)));
    }

    for spoil in [
        |channel: &mut Channel| channel.states = 257,
        |channel: &mut Channel| channel.states = 65_535,
        |channel: &mut Channel| channel.states = 2,
        |channel: &mut Channel| channel.entries.clear(),
        |channel: &mut Channel| channel.entries[1].value = 4,
        |channel: &mut Channel| channel.entries[1].next = 1,
        |channel: &mut Channel| channel.total = MAX_TOTAL + 1,
        |channel: &mut Channel| channel.total = u64::MAX,
    ] {
        let mut spoilt = loaded.clone();
        spoil(&mut spoilt.channels[0]);
        assert_eq!(spoilt.load(0, &t), Err(refused(17)));
        assert_eq!(spoilt.event(0, 0, 0), Err(refused(17)));
        assert_eq!(spoilt.restart_one(0), Err(refused(17)));
        assert_eq!(spoilt.restart_all(), Err(refused(17)));
        assert_eq!(spoilt.clear(0), Err(refused(17)));
        // It is no other channel's, but for its rows (document 02, F-12).
        if spoilt.channels[0].states == 65_535 {
            assert_eq!(spoilt.load(1, &t), Err(refused(25)));
            assert_eq!(spoilt.load(8, &t), Err(refused(25)));
            continue;
        }
        assert_eq!(spoilt.load(1, &t), Ok(()));
        assert_eq!(spoilt.event(1, 0, 5), Ok(reading(3, 5, 0)));
    }

    // An empty channel is sound whatever it holds.
    let mut odd = loaded.clone();
    odd.channels[3] = Channel { states: 0, current: 9, entries: vec![Entry { value: 99, next: 99 }], total: u64::MAX };
    assert_eq!(odd.event(3, 0, 0), Err(refused(15)));
    assert_eq!(odd.restart_all(), Ok(()));
    assert_eq!(odd.load(3, &t), Ok(()));
    assert_eq!(odd.event(3, 0, 5), Ok(reading(3, 5, 0)));
}

#[test]
fn the_log_judges_the_same() {
    let event = |channel: usize, event: usize| Call::Event { channel, event, pulses: 6 };
    let mut log = Log::new(RawSetUp::four_values(2), WHEEL).unwrap();
    let over = bytes(&joined_loops(16, 17));
    let most = bytes(&steps(255));
    assert_eq!(log.call(&Call::Load { channel: 0, rule: over }), Err(refused(10)));
    assert_eq!(log.call(&Call::Load { channel: 0, rule: most }), Ok(None));
    assert_eq!(log.call(&event(0, 0)), Ok(Some(reading(3, 6, 0))));
    assert_eq!(log.call(&event(0, 2)), Err(refused(16)));
    assert_eq!(log.call(&event(1, 2)), Err(refused(15)));
    assert_eq!(log.call(&event(8, 2)), Err(refused(14)));
    assert_eq!((log.record(0).unwrap().events(), log.record(0).unwrap().total()), (&[0][..], 6));
    assert_eq!(log.call(&Call::RestartAll), Ok(None));
    assert_eq!((log.record(0).unwrap().events(), log.record(0).unwrap().total()), (&[][..], 0));
    assert_eq!(log.call(&Call::Clear { channel: 0 }), Ok(None));
    assert!(log.record(0).is_none());
}

/// Variables of so many outer binders, each with an A before it.
fn outer(count: usize) -> String {
    (1..=count).map(|index| format!("A X{index} ")).collect()
}

#[test]
fn deep_and_wide_rules_stay_cheap() {
    let set_up = four(2);
    let mut formulas = Formulas::new(set_up.clone());
    let rows: Vec<u8> = (0..64).flat_map(|state: u8| [3, (state + 1) % 64, 3, 0]).collect();
    let device = Lent { states: 64, start: 0, bytes: &rows }.table(&set_up).unwrap();
    for items in [
        under(12, "T"),
        "A ".repeat(17) + &under(12, "T ").repeat(18),
        "G0 ".repeat(255) + "T",
        "A ".repeat(127) + &"T ".repeat(128),
        "V G0 ".repeat(12) + "X11",
        "V ".to_string() + &"G0 ".repeat(243) + &under(11, "X11"),
        // Both parts go on with the whole: the follower doubles with each event.
        "V A G0 X0 G0 X0".to_string(),
        // Each inner binder has its outer one's demands ten times.
        inner_binders(11, 10),
        // Each has those of all outer binders.
        "V G0 ".to_string() + &(1..12).map(|count| "V ".to_string() + &outer(count) + "G0 ").collect::<String>() + "X0",
        // No G between the inner binders.
        "V G0 ".to_string() + &under(11, "X11"),
        // Loops of prime lengths.
        [2, 3, 5, 7, 11, 13, 17, 19, 23]
            .iter()
            .enumerate()
            .map(|(index, &length)| if index < 8 { "A V " } else { "V " }.to_string() + &"G0 ".repeat(length) + "X0 ")
            .collect(),
    ] {
        let rule = rule(&set_up, &items).unwrap();
        let root = formulas.of_rule(&rule);
        assert_eq!(formulas.values(root, &[0; 300]), [3; 300]);
        // The rules demand no value, so every device passes.
        assert_eq!(satisfying(&set_up, &rule, &device), u64::MAX);
        let mut log = Log::new(set_up.raw().clone(), WHEEL).unwrap();
        let loaded = log.call(&Call::Load { channel: 0, rule: rule.to_bytes() });
        match Table::of_rule(&set_up, &rule) {
            Ok(table) => {
                assert_eq!(loaded, Ok(None), "{items}");
                assert_eq!(trial(&set_up, (&device, 0), (&table, 0)), Verdict::Passes(Grade::Same));
            }
            Err(refusal) => assert_eq!((loaded, refusal), (Err(refusal), refused(10)), "{items}"),
        }
        let _ = read(&file(items.trim_end())).unwrap();
    }
    // A demand at the end of a long chain falls back through all states of a device.
    let rule = rule(&set_up, "V A O0.2 G0 X0").unwrap();
    let mut rows = rows;
    rows.chunks_exact_mut(4).for_each(|row| row[0] = 2);
    rows[4 * 63] = 1;
    let device = Lent { states: 64, start: 0, bytes: &rows }.table(&set_up).unwrap();
    assert_eq!(satisfying(&set_up, &rule, &device), 0);
    let table = Table::of_rule(&set_up, &rule).unwrap();
    assert_eq!(trial(&set_up, (&device, 0), (&table, 0)), Verdict::Fails(vec![0; 64]));

    // Every state goes to every other: the number of paths is out of reach.
    let many = four(16);
    let rows: Vec<u8> = (0..64 * 16).flat_map(|index: usize| [0, (index % 64 / 16 * 16 + index % 16) as u8]).collect();
    let dense = Lent { states: 64, start: 0, bytes: &rows }.table(&many).unwrap();
    assert_eq!(characteristic::rule_of(&dense, 0), Err(refused(12)));
}
