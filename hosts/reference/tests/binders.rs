//! Document 02, F-2 and F-9: variables under inner binders, and binders twelve deep.

mod common;

use std::sync::mpsc::channel;
use std::thread::spawn;
use std::time::Duration;

use common::{bytes, file, four, joined_loops, reading, rule, seeds, table, WHEEL};
use gurvazze_reference::formula::{in_bytes, Formulas, Node, Rule};
use gurvazze_reference::generate::{
    has_most_binders, has_variable_under_inner_binder, inner_binders, under, Generator, RawTable,
};
use gurvazze_reference::table::{compile, Lent, Table};
use gurvazze_reference::tool::{Call, Log, Tool};
use gurvazze_reference::trial::{covers, satisfying, trial, trial_of_rule, Grade, Outcome, Verdict, WORD_BYTES};
use gurvazze_reference::values::{RawSetUp, FOUR_VALUES};
use gurvazze_reference::{channel_file, characteristic, render, Refusal};

/// The paths from the root to each node without parts, that included, by their node numbers; lower ones first.
fn paths(nodes: &[Node]) -> Vec<Vec<usize>> {
    let mut paths = Vec::new();
    let end = add_paths(nodes, &mut vec![0], &mut paths);
    assert_eq!(end, nodes.len());
    paths
}

/// Adds the paths through the last node of a path, and returns the node behind it and its parts.
fn add_paths(nodes: &[Node], path: &mut Vec<usize>, paths: &mut Vec<Vec<usize>>) -> usize {
    let node = path[path.len() - 1];
    if nodes[node].parts() == 0 {
        paths.push(path.clone());
    }
    let mut next = node + 1;
    for _ in 0..nodes[node].parts() {
        path.push(next);
        next = add_paths(nodes, path, paths);
        path.pop();
    }
    next
}

/// Those that lead to a variable.
fn paths_to_variables(nodes: &[Node]) -> Vec<Vec<usize>> {
    let mut paths = paths(nodes);
    paths.retain(|path| matches!(nodes[path[path.len() - 1]], Node::Variable(_)));
    paths
}

/// "The count is of V nodes on a path from the root."
fn binders_on(nodes: &[Node], path: &[usize]) -> usize {
    path.iter().filter(|&&node| nodes[node] == Node::Greatest).count()
}

/// The V nodes on the path that has the most.
fn most_binders(nodes: &[Node]) -> usize {
    paths(nodes).iter().map(|path| binders_on(nodes, path)).max().expect("there is a path")
}

/// What lies between a variable and its own binder; nothing where it has none: "how many binders lie between it and its own".
fn between<'a>(nodes: &[Node], path: &'a [usize]) -> Option<&'a [usize]> {
    let (&variable, above) = path.split_last()?;
    let Node::Variable(index) = nodes[variable] else { panic!("the path leads to a variable") };
    let binders: Vec<usize> = (0..above.len()).filter(|&at| nodes[above[at]] == Node::Greatest).collect();
    let own = binders.len().checked_sub(1 + usize::from(index))?;
    Some(&above[binders[own] + 1..])
}

fn is_guarded(nodes: &[Node], path: &[usize]) -> bool {
    between(nodes, path).is_some_and(|between| between.iter().any(|&node| matches!(nodes[node], Node::After(_))))
}

/// Document 01 alone: "a position is open when the nearest ancestor that is no A is a G".
fn is_open(nodes: &[Node], path: &[usize]) -> bool {
    let nearest = path.iter().rev().skip(1).find(|&&node| nodes[node] != Node::Both);
    nearest.is_some_and(|&node| matches!(nodes[node], Node::After(_)))
}

/// 8, 23 and 9 of a whole tree: "8: variable without binder; place = lowest", "23, a path with more than twelve V nodes, after 8 and
/// before 9", and "A variable is in order when a G lies between it and its own binder. Refusal 9 is given only where none does."
fn judged(nodes: &[Node]) -> Result<(), Refusal> {
    let paths = paths_to_variables(nodes);
    let lowest = |number: u8, bad: &dyn Fn(&[usize]) -> bool| match paths.iter().find(|path| bad(path)) {
        Some(path) => Err(Refusal::at(number, path[path.len() - 1])),
        None => Ok(()),
    };
    lowest(8, &|path| between(nodes, path).is_none())?;
    if most_binders(nodes) > 12 {
        return Err(Refusal::new(23));
    }
    lowest(9, &|path| !is_guarded(nodes, path))
}

/// How often each answer arose.
#[derive(Debug, Default)]
struct Counts {
    /// Accepted, and by document 01 alone too.
    narrow: usize,
    /// Accepted by document 02 only.
    wide: usize,
    /// 9, a V directly below a V among the nodes.
    nine_below_two: usize,
    nine: usize,
    eight: usize,
    /// 8, though 9 holds of a lower variable.
    eight_before_nine: usize,
    deep: DeepCounts,
}

/// How often each answer arose with about twelve binders on a path.
#[derive(Debug, Default)]
struct DeepCounts {
    /// With 11, 12, 13 and 14.
    all_with: [usize; 4],
    /// Accepted, with twelve.
    twelve: usize,
    /// 9, with twelve.
    nine_with_twelve: usize,
    /// 23, with thirteen.
    thirteen: usize,
    /// 23, though the path along the first parts has at most twelve.
    beside_first_parts: usize,
    /// 23, though 9 holds too.
    deep_before_nine: usize,
    /// 8, though 23 holds too.
    eight_before_deep: usize,
}

impl DeepCounts {
    fn count(&mut self, nodes: &[Node], answer: &Result<Rule, Refusal>) {
        let most = most_binders(nodes);
        if let 11..=14 = most {
            self.all_with[most - 11] += 1;
        }
        match answer.as_ref().map_err(|refusal| refusal.number) {
            Ok(_) => self.twelve += usize::from(most == 12),
            Err(9) => self.nine_with_twelve += usize::from(most == 12),
            Err(8) => self.eight_before_deep += usize::from(most > 12),
            Err(_) => {
                self.thirteen += usize::from(most == 13);
                self.beside_first_parts += usize::from(binders_on(nodes, &paths(nodes)[0]) <= 12);
                self.deep_before_nine += usize::from(paths_to_variables(nodes).iter().any(|path| !is_guarded(nodes, path)));
            }
        }
    }

    fn all(&self) -> [usize; 6] {
        [
            self.twelve,
            self.nine_with_twelve,
            self.thirteen,
            self.beside_first_parts,
            self.deep_before_nine,
            self.eight_before_deep,
        ]
    }
}

impl Counts {
    fn count(&mut self, nodes: &[Node], answer: &Result<Rule, Refusal>) {
        self.deep.count(nodes, answer);
        let paths = paths_to_variables(nodes);
        match *answer {
            Ok(_) if paths.iter().all(|path| is_open(nodes, path)) => self.narrow += 1,
            Ok(_) => self.wide += 1,
            Err(Refusal { number: 9, .. }) => {
                self.nine += 1;
                self.nine_below_two += usize::from(nodes.windows(2).any(|pair| pair == [Node::Greatest; 2]));
            }
            Err(Refusal { number: 23, .. }) => {}
            Err(Refusal { place, .. }) => {
                self.eight += 1;
                let mut lower = paths.iter().take_while(|path| path.last() != place.as_ref());
                self.eight_before_nine += usize::from(lower.any(|path| !is_guarded(nodes, path)));
            }
        }
    }

    fn all(&self) -> [usize; 6] {
        [self.narrow, self.wide, self.nine_below_two, self.nine, self.eight, self.eight_before_nine]
    }
}

#[test]
fn rules_are_judged_by_their_paths() {
    let mut counts = Counts::default();
    for seed in seeds(20_000) {
        let mut g = Generator::new(seed);
        let set_up = g.any_set_up();
        let nodes = if g.once_in(3) { g.rule(&set_up).nodes().to_vec() } else { g.misplaced_variables(&set_up) };
        let answer = Rule::from_bytes(&set_up, &in_bytes(set_up.kind(), &nodes));
        assert_eq!(answer.as_ref().map(|_| ()).map_err(|&refusal| refusal), judged(&nodes), "seed {seed}: {nodes:?}");
        // Every rule that document 01 alone accepts is accepted, if no path has more than twelve binders.
        let variables = paths_to_variables(&nodes);
        let has_binders = variables.iter().all(|path| between(&nodes, path).is_some());
        if has_binders && variables.iter().all(|path| is_open(&nodes, path)) && most_binders(&nodes) <= 12 {
            assert!(answer.is_ok(), "seed {seed}: {nodes:?}");
        }
        if let Ok(rule) = &answer {
            let wide = variables.iter().any(|path| !is_open(&nodes, path));
            assert_eq!(has_variable_under_inner_binder(rule), wide, "seed {seed}: {nodes:?}");
            assert_eq!(has_most_binders(rule), most_binders(&nodes) == 12, "seed {seed}: {nodes:?}");
        }
        counts.count(&nodes, &answer);
    }
    assert!(counts.all().iter().all(|&count| count > 500), "{counts:?}");
    assert!(counts.deep.all_with.iter().all(|&count| count > 500), "{counts:?}");
    assert!(counts.deep.all().iter().all(|&count| count > 100), "{counts:?}");
}

#[test]
fn variables_under_inner_binders() {
    let set_up = four(2);
    for (items, answer) in [
        ("V X0", Err(Refusal::at(9, 1))),
        ("V V X1", Err(Refusal::at(9, 2))),
        ("V G0 V X0", Err(Refusal::at(9, 3))),
        ("V A G0 X0 X0", Err(Refusal::at(9, 4))),
        ("V G0 V V X1", Err(Refusal::at(9, 4))),
        ("V A X0 G0 V X0", Err(Refusal::at(9, 2))),
        ("V A G0 V X0 X0", Err(Refusal::at(9, 4))),
        // 8 over all variables first.
        ("V A X0 G0 X1", Err(Refusal::at(8, 4))),
        ("V G0 V X2", Err(Refusal::at(8, 3))),
        // The same as V G0 X0.
        ("V G0 V X1", Ok(vec![3, 0, 3, 1, 3, 1, 3, 1])),
        ("V G0 V V X2", Ok(vec![3, 0, 3, 1, 3, 1, 3, 1])),
        // The inner binder has the outer one's value as well as its own, on every event 0.
        ("V A O0.1 G0 V A O0.2 X1", Ok(vec![1, 1, 3, 2, 0, 1, 3, 2, 3, 2, 3, 2])),
        ("V G0 V A X1 G1 X0", Ok(vec![3, 1, 3, 2, 3, 1, 3, 1, 3, 2, 3, 2])),
    ] {
        assert_eq!(rule(&set_up, items).map(|_| ()), answer.clone().map(|_| ()), "{items}");
        assert_eq!(table(&set_up, items).map(|table| table.to_bytes()), answer, "{items}");
    }
}

/// 23 in a path of any shape; 12 and 13 V nodes on one path, or only on two together.
#[test]
fn twelve_binders_on_a_path() {
    let set_up = four(2);
    let [six, seven, twelve, thirteen] = [6, 7, 12, 13].map(|binders| under(binders, "T"));
    for (items, accepted) in [
        (twelve.clone(), true),
        (thirteen.clone(), false),
        (under(14, "T"), false),
        (under(255, "T"), false),
        (under(12, "A T T"), true),
        (under(13, "A T T"), false),
        // In either part of an A, and further behind.
        (format!("A T {twelve}"), true),
        (format!("A T {thirteen}"), false),
        (format!("A {thirteen} T"), false),
        (format!("A {twelve} {twelve}"), true),
        (format!("A {twelve} {thirteen}"), false),
        (format!("A {thirteen} {twelve}"), false),
        (format!("{}{thirteen}", "A T ".repeat(100)), false),
        (format!("{}{twelve}", "A T ".repeat(100)), true),
        // The V nodes of two paths.
        (format!("A {seven} {six}"), true),
        (format!("A {six} {seven}"), true),
        (under(6, &format!("A {six} {six}")), true),
        (under(6, &format!("A {six} {seven}")), false),
        (under(6, &format!("A {seven} {six}")), false),
        (under(6, &format!("A G0 {six} G1 {seven}")), false),
        // G nodes between.
        ("V G0 ".repeat(12) + "X11", true),
        ("V G0 ".repeat(12) + "X0", true),
        ("V G0 ".repeat(13) + "X12", false),
        ("V G0 ".repeat(13) + "X0", false),
        ("G0 ".repeat(40) + &twelve, true),
        ("G0 ".repeat(40) + &thirteen, false),
        (under(12, &("G0 ".repeat(40) + "X11")), true),
        (under(12, &("G0 ".repeat(40) + "V T")), false),
    ] {
        let answer = if accepted { Ok(()) } else { Err(Refusal::new(23)) };
        assert_eq!(rule(&set_up, &items).map(|_| ()), answer, "{items}");
        assert_eq!(channel_file::read(&file(&items)).map(|_| ()), answer, "{items}");
    }
    // Eighteen of them side by side: 251 nodes.
    let side_by_side = "A ".repeat(17) + &vec![twelve; 18].join(" ");
    assert_eq!(table(&set_up, &side_by_side).map(|table| table.states()), Ok(1));
}

/// 5, 6, 7, 8, then 23, then 9, then 10, each over the whole rule.
#[test]
fn twenty_three_comes_after_8_and_before_9() {
    let set_up = four(2);
    let thirteen = under(13, "T");
    for (items, refusal) in [
        (under(256, "T"), Refusal::new(5)),
        (under(13, "G9 T"), Refusal::at(6, 13)),
        (format!("A {thirteen} O0.9"), Refusal::at(6, 15)),
        (under(13, ""), Refusal::at(7, 13)),
        (under(256, ""), Refusal::at(7, 256)),
        (under(13, "A T"), Refusal::at(7, 15)),
        (under(13, "T T"), Refusal::at(7, 14)),
        (under(13, "X13"), Refusal::at(8, 13)),
        (under(13, "G0 X13"), Refusal::at(8, 14)),
        (format!("A X0 {thirteen}"), Refusal::at(8, 1)),
        (format!("A {thirteen} X0"), Refusal::at(8, 15)),
        (under(13, "X0"), Refusal::new(23)),
        (under(13, "X12"), Refusal::new(23)),
        (format!("A V X0 {thirteen}"), Refusal::new(23)),
        (format!("A {thirteen} V X0"), Refusal::new(23)),
        (under(13, &joined_loops(16, 17)), Refusal::new(23)),
        (under(12, "X0"), Refusal::at(9, 12)),
        (under(12, "X11"), Refusal::at(9, 12)),
        (format!("A V X0 {}", under(12, "T")), Refusal::at(9, 2)),
        (under(11, &joined_loops(16, 17)), Refusal::new(10)),
    ] {
        assert_eq!(table(&set_up, &items), Err(refusal), "{items}");
        assert_eq!(render::program(&file(items.trim_end())), render::refusal(refusal), "{items}");
    }
}

/// Wherever a rule is judged, in its place among the other refusals; nothing that was lent changes.
#[test]
fn calls_with_thirteen_binders() {
    let raw = RawSetUp::four_values(2);
    let (twelve, thirteen) = (bytes(&under(12, "T")), bytes(&under(13, "T")));
    let refusal = Refusal::new(23);
    assert_eq!(compile(&raw, &thirteen, &mut []), Err(refusal));
    assert_eq!(compile(&raw, &twelve, &mut []), Err(Refusal::new(13)));
    assert_eq!(compile(&RawSetUp::numbers(2, 4, 4, FOUR_VALUES.to_vec()), &thirteen, &mut []), Err(Refusal::new(2)));

    assert_eq!(channel_file::write(&raw, &thirteen, &mut []), Err(refusal));
    assert_eq!(channel_file::write(&raw, &twelve, &mut []), Err(Refusal::new(13)));
    let text = file(&under(13, "T"));
    assert_eq!(channel_file::read_into(&text, &mut [], &mut []), Err(refusal));
    assert_eq!(channel_file::tokens(&text), under(13, "T").as_bytes());
    assert_eq!(render::program(&text), "refused=23\n");
    let mut lent = [7; 4096];
    assert_eq!(channel_file::write(&raw, &thirteen, &mut lent), Err(refusal));
    assert_eq!(compile(&raw, &thirteen, &mut lent), Err(refusal));
    assert_eq!(lent, [7; 4096]);
    let length = channel_file::write(&raw, &twelve, &mut lent).unwrap();
    assert_eq!(lent[..length], file(&under(12, "T")));
    assert_eq!(channel_file::read(&lent[..length]).unwrap().rule.to_bytes(), twelve);

    let none = Lent { states: 0, start: 0, bytes: &[] };
    assert_eq!(trial_of_rule(&raw, none, &thirteen, &mut []), Err(refusal));
    assert_eq!(trial_of_rule(&raw, none, &twelve, &mut []), Err(Refusal::new(11)));
    assert_eq!(covers(&raw, &thirteen, &bytes("X0")), Err(refusal));
    assert_eq!(covers(&raw, &bytes("X0"), &thirteen), Err(Refusal::at(8, 0)));
    assert_eq!(covers(&raw, &twelve, &thirteen), Err(refusal));
    assert_eq!(covers(&raw, &twelve, &twelve), Ok(None));

    let mut tool = Tool::new(raw.clone(), WHEEL).unwrap();
    let mut log = Log::new(raw, WHEEL).unwrap();
    let event = Call::Event { channel: 0, event: 0, pulses: 0 };
    let load = |channel: usize, rule: &[u8]| Call::Load { channel, rule: rule.to_vec() };
    for (call, answer) in [
        (load(8, &thirteen), Err(Refusal::new(14))),
        (load(0, &thirteen), Err(refusal)),
        (event.clone(), Err(Refusal::new(15))),
        (load(0, &bytes("O0.1")), Ok(None)),
        (load(0, &thirteen), Err(refusal)),
        (event.clone(), Ok(Some(reading(1, 0, 0)))),
        (load(0, &twelve), Ok(None)),
        (event, Ok(Some(reading(3, 0, 0)))),
    ] {
        assert_eq!((tool.call(&call), log.call(&call)), (answer, answer), "{call:?}");
    }
}

/// One event, chains of states: "document 01's chain of 63 states is refused and a chain of 12 is accepted", "after 12 for a written one".
#[test]
fn written_rules_of_chains() {
    let raw = RawSetUp::four_values(1);
    for (states, answer) in [
        (1, Ok(5)),
        (11, Ok(45)),
        (12, Ok(49)),
        (13, Err(Refusal::new(23))),
        (14, Err(Refusal::new(23))),
        (62, Err(Refusal::new(23))),
        (63, Err(Refusal::new(23))),
        (64, Err(Refusal::new(12))),
    ] {
        let chain = RawTable::chain(states, 1);
        let mut lent = [7; 768];
        assert_eq!(characteristic::write_rule(&raw, chain.lent(), &mut lent), answer, "{states} states");
        let nodes = answer.unwrap_or(0);
        assert!(lent[3 * nodes..].iter().all(|&byte| byte == 7), "{states} states");
        if nodes > 0 {
            // It is a rule, and its table is the chain.
            let mut rows = vec![0; 2 * states];
            assert_eq!(compile(&raw, &lent[..3 * nodes], &mut rows), Ok(states));
            assert_eq!(rows, chain.bytes);
        }
        // 13 is last, 11 first.
        let no_room = if answer.is_ok() { Err(Refusal::new(13)) } else { answer };
        assert_eq!(characteristic::write_rule(&raw, chain.lent(), &mut []), no_room, "{states} states");
        let no_start = Lent { start: states, ..chain.lent() };
        assert_eq!(characteristic::write_rule(&raw, no_start, &mut []), Err(Refusal::new(11)), "{states} states");
    }
    // The states that are left from a start.
    let chain = RawTable::chain(64, 1);
    for (start, answer) in [(1, Err(Refusal::new(23))), (51, Err(Refusal::new(23))), (52, Ok(49)), (63, Ok(5))] {
        let from = Lent { start, ..chain.lent() };
        assert_eq!(characteristic::write_rule(&raw, from, &mut [0; 768]), answer, "from {start}");
    }
}

/// A table whose states go on to the next on one event and elsewhere on the others.
fn onwards(events: usize, states: usize, on: usize, elsewhere: impl Fn(usize) -> usize) -> RawTable {
    let next = |state: usize, event: usize| if event == on { (state + 1).min(states - 1) } else { elsewhere(state) };
    let bytes = (0..states).flat_map(|state| (0..events).map(move |event| (state, event)));
    RawTable { states, start: 0, bytes: bytes.flat_map(|(state, event)| [3, next(state, event) as u8]).collect() }
}

/// The longest path counts, on whichever events it goes.
#[test]
fn written_rules_of_several_events() {
    for events in 2..=4 {
        for on in 0..events {
            for (states, accepted) in [(12, true), (13, false)] {
                // The other events return to the state itself, or to the first one.
                for elsewhere in [|state: usize| state, |_: usize| 0] {
                    let table = onwards(events, states, on, elsewhere);
                    let answer = characteristic::write_rule(&RawSetUp::four_values(events), table.lent(), &mut [0; 768]);
                    let expected = if accepted { Ok((5 * events - 1) * states + 1) } else { Err(Refusal::new(23)) };
                    assert_eq!(answer, expected, "{events} events, {states} states on event {on}");
                }
            }
        }
    }
    // On the other event each state goes to the last one, whose rule is written once more there.
    for on in [0, 1] {
        for (states, expected) in [(12, Ok(8 * 23 + 24)), (13, Err(Refusal::new(23))), (14, Err(Refusal::new(23)))] {
            let table = onwards(2, states, on, |_| states - 1);
            let answer = characteristic::write_rule(&RawSetUp::four_values(2), table.lent(), &mut [0; 768]);
            assert_eq!(answer, expected, "{states} states on event {on}");
        }
    }
    // With five events a chain of 13 states has 313 nodes, and 12 comes first.
    let table = onwards(5, 13, 4, |state| state);
    assert_eq!(characteristic::write_rule(&RawSetUp::four_values(5), table.lent(), &mut []), Err(Refusal::new(12)));
}

/// How many brackets the rules of the family have: with the outermost binder, twelve on a path at most.
const BRACKETS: [usize; 3] = [3, 7, 11];

/// How many variables each bracket has; 245 nodes at most.
const VARIABLES: [usize; 2] = [2, 10];

/// Each with so many brackets and variables.
fn families() -> impl Iterator<Item = (usize, usize)> {
    BRACKETS.into_iter().flat_map(|brackets| VARIABLES.map(|variables| (brackets, variables)))
}

/// Runs what is over at once, unless it takes 10^11 steps.
fn soon<T: Send + 'static>(work: impl FnOnce() -> T + Send + 'static) -> T {
    let (done, result) = channel();
    spawn(move || done.send(work()));
    result.recv_timeout(Duration::from_secs(60)).expect("the work is done within a minute")
}

/// One event: each event adds the next inner binder's G to the state, until the last, which returns to itself.
fn chain(brackets: usize) -> Vec<u8> {
    RawTable::chain(brackets + 1, 3).bytes
}

/// Two events: the chain, with the empty set, which every state goes to on event 1, as its state 2.
fn chain_and_empty_set(brackets: usize) -> Vec<u8> {
    let number = |state: usize| if state < 2 { state } else { state + 1 };
    let mut rows: Vec<[u8; 4]> = (0..=brackets).map(|state| [3, number((state + 1).min(brackets)) as u8, 3, 2]).collect();
    rows.insert(2, [3, 2, 3, 2]);
    rows.concat()
}

#[test]
fn tables_of_the_family() {
    for (brackets, variables) in families() {
        for (events, rows) in [(1, chain(brackets)), (2, chain_and_empty_set(brackets))] {
            let in_bytes = bytes(&inner_binders(brackets, variables));
            assert_eq!(in_bytes.len(), 3 * (3 + (2 + 2 * variables) * brackets));
            let mut lent = vec![7; rows.len()];
            let (states, lent) = soon(move || (compile(&RawSetUp::four_values(events), &in_bytes, &mut lent), lent));
            assert_eq!(states, Ok(rows.len() / 2 / events), "{brackets} brackets, {events} events");
            assert_eq!(lent, rows, "{brackets} brackets, {events} events");
        }
    }
}

/// "a path with more than twelve V nodes".
#[test]
fn more_brackets_are_23() {
    for brackets in [12, 20, 42] {
        let items = inner_binders(brackets, 2);
        assert_eq!(soon(move || table(&four(1), &items)), Err(Refusal::new(23)), "{brackets} brackets");
    }
}

/// How many formulas the values of a rule of the family on 100 events take; it demands none.
fn formulas_kept(brackets: usize, variables: usize) -> usize {
    let set_up = four(2);
    let rule = rule(&set_up, &inner_binders(brackets, variables)).unwrap();
    let mut formulas = Formulas::new(set_up.clone());
    let root = formulas.of_rule(&rule);
    let word = [[0; 99].to_vec(), vec![1]].concat();
    assert_eq!(formulas.values(root, &word), [3; 100]);
    formulas.count()
}

#[test]
fn the_meaning_of_the_family() {
    for variables in VARIABLES {
        let kept = BRACKETS.map(|brackets| soon(move || formulas_kept(brackets, variables)));
        // Each bracket adds as many.
        let each = (kept[1] - kept[0]) / (BRACKETS[1] - BRACKETS[0]);
        assert_eq!(kept[2], kept[1] + each * (BRACKETS[2] - BRACKETS[1]), "{kept:?}");
        assert!(each < 10 * variables, "{kept:?}");
    }
}

/// All that takes a rule takes one of the family.
#[test]
fn calls_with_the_family() {
    for (brackets, variables) in families() {
        soon(move || call_with(brackets, variables));
    }
}

fn call_with(brackets: usize, variables: usize) {
    let set_up = four(2);
    let items = inner_binders(brackets, variables);
    let in_bytes = bytes(&items);
    let of_family = rule(&set_up, &items).unwrap();
    let table = Table::of_rule(&set_up, &of_family).unwrap();
    let rows = table.to_bytes();
    // Its own table satisfies it, passes as same and covers it.
    assert_eq!(satisfying(&set_up, &of_family, &table), (1 << table.states()) - 1);
    assert_eq!(trial(&set_up, (&table, 0), (&table, 0)), Verdict::Passes(Grade::Same));
    let device = Lent { states: table.states(), start: 0, bytes: &rows };
    let tried = trial_of_rule(set_up.raw(), device, &in_bytes, &mut [0; WORD_BYTES]);
    assert_eq!(tried, Ok(Outcome::Passes(Grade::Same)));
    assert_eq!(covers(set_up.raw(), &in_bytes, &in_bytes), Ok(None));
    assert_eq!(covers(set_up.raw(), &in_bytes, &bytes("O1.1")), Ok(Some(vec![1])));
    // A channel loaded with it, by the tool and by the log.
    let mut tool = Tool::new(set_up.raw().clone(), WHEEL).unwrap();
    let mut log = Log::new(set_up.raw().clone(), WHEEL).unwrap();
    let mut calls = vec![Call::Load { channel: 0, rule: in_bytes.clone() }];
    calls.extend((0..100).map(|index| Call::Event { channel: 0, event: usize::from(index == 60), pulses: index }));
    for call in &calls {
        assert_eq!(tool.call(call), log.call(call));
    }
    // Its file, and the rule of its table.
    let text = file(&items);
    assert_eq!(channel_file::read(&text).unwrap().rule, of_family);
    assert_eq!(render::program(&text), render::table(&table));
    let one_event = Table::of_rule(&four(1), &of_family).unwrap();
    assert_eq!(characteristic::rule_of(&one_event, 0).unwrap().nodes().len(), 4 * (brackets + 1) + 1);
}

/// The outermost binder demands a value; the device has it everywhere but in its last state, and every state reaches that.
#[test]
fn satisfaction_falls_through_all_binders() {
    for (brackets, variables) in families() {
        let sets = soon(move || {
            let set_up = four(1);
            let items = inner_binders(brackets, variables).replacen("V G0", "V A O0.1 G0", 1);
            let rule = rule(&set_up, &items).unwrap();
            [1, 3].map(|last| {
                let rows: Vec<u8> =
                    (0..64).flat_map(|state: u8| [if state == 63 { last } else { 1 }, (state + 1) % 64]).collect();
                satisfying(&set_up, &rule, &Lent { states: 64, start: 0, bytes: &rows }.table(&set_up).unwrap())
            })
        });
        assert_eq!(sets, [u64::MAX, 0], "{brackets} brackets");
    }
}
