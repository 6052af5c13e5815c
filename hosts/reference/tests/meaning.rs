//! Random rules, words and devices: the definitions of documents 01 and 02 held against each other.

mod common;

use std::collections::{BTreeSet, HashMap};
use std::rc::Rc;

use common::{bytes, bytes_of, four, seeds};
use gurvazze_reference::formula::{joined, Formulas, Id, Node, Rule};
use gurvazze_reference::generate::{has_most_binders, has_variable_under_inner_binder, Generator};
use gurvazze_reference::table::Table;
use gurvazze_reference::trial::{covers, first_word, same_values, satisfies, satisfying, trial, Grade, Verdict};
use gurvazze_reference::values::{Comparison, Kind, RawValues, SetUp, Value};
use gurvazze_reference::{characteristic, Refusal};

/// All words up to a length, shorter ones first, then the smaller at the first difference.
fn words(events: usize, length: usize) -> Vec<Vec<u8>> {
    let mut words: Vec<Vec<u8>> = vec![Vec::new()];
    let mut from = 0;
    for _ in 0..length {
        let to = words.len();
        for index in from..to {
            for event in 0..events as u8 {
                let mut word = words[index].clone();
                word.push(event);
                words.push(word);
            }
        }
        from = to;
    }
    words
}

/// A length for which there are not too many words.
fn length_for(events: usize) -> usize {
    match events {
        1 => 30,
        2 => 6,
        3 => 4,
        _ => 2,
    }
}

/// Formulas as a plain tree with named variables: each binder's name is its number of binders around it.
#[derive(Clone, PartialEq, Debug)]
enum Plain {
    True,
    Variable(usize),
    After(u8, Rc<Plain>),
    Output(u8, Value),
    Both(Rc<Plain>, Rc<Plain>),
    Greatest(usize, Rc<Plain>),
}

impl Plain {
    fn of(nodes: &mut std::slice::Iter<Node>, binders: usize) -> Plain {
        match *nodes.next().unwrap() {
            Node::True => Plain::True,
            Node::Variable(index) => Plain::Variable(binders - 1 - usize::from(index)),
            Node::After(event) => Plain::After(event, Rc::new(Plain::of(nodes, binders))),
            Node::Output(event, value) => Plain::Output(event, value),
            Node::Both => {
                let first = Plain::of(nodes, binders);
                Plain::Both(Rc::new(first), Rc::new(Plain::of(nodes, binders)))
            }
            Node::Greatest => Plain::Greatest(binders, Rc::new(Plain::of(nodes, binders + 1))),
        }
    }

    fn put(&self, name: usize, whole: &Plain) -> Plain {
        match self {
            Plain::Variable(own) if *own == name => whole.clone(),
            Plain::True | Plain::Variable(_) | Plain::Output(..) => self.clone(),
            Plain::After(event, part) => Plain::After(*event, Rc::new(part.put(name, whole))),
            Plain::Both(first, second) => Plain::Both(Rc::new(first.put(name, whole)), Rc::new(second.put(name, whole))),
            Plain::Greatest(own, _) if *own == name => self.clone(),
            Plain::Greatest(own, part) => Plain::Greatest(*own, Rc::new(part.put(name, whole))),
        }
    }

    fn value(&self, set_up: &SetUp, on: u8) -> Value {
        match self {
            Plain::True | Plain::After(..) => set_up.top(),
            Plain::Output(event, value) if *event == on => *value,
            Plain::Output(..) => set_up.top(),
            Plain::Both(first, second) => set_up.meet(first.value(set_up, on), second.value(set_up, on)),
            Plain::Greatest(name, part) => part.put(*name, self).value(set_up, on),
            Plain::Variable(_) => panic!("free or unguarded"),
        }
    }

    fn follower(&self, on: u8) -> Plain {
        match self {
            Plain::After(event, part) if *event == on => (**part).clone(),
            Plain::True | Plain::After(..) | Plain::Output(..) => Plain::True,
            Plain::Both(first, second) => Plain::Both(Rc::new(first.follower(on)), Rc::new(second.follower(on))),
            Plain::Greatest(name, part) => part.put(*name, self).follower(on),
            Plain::Variable(_) => panic!("free or unguarded"),
        }
    }
}

#[test]
fn the_formula_semantics_are_the_plain_equations() {
    let mut wide = 0;
    for seed in seeds(600) {
        let mut g = Generator::new(seed);
        let set_up = g.any_set_up();
        let rule = small_rule(&mut g, &set_up, 14);
        wide += usize::from(has_variable_under_inner_binder(&rule));
        let mut formulas = Formulas::new(set_up.clone());
        let root = formulas.of_rule(&rule);
        let plain = Plain::of(&mut rule.nodes().iter(), 0);
        for _ in 0..3 {
            let word = g.word(&set_up, 5);
            let mut now = plain.clone();
            let mut expected = Vec::new();
            for &event in &word {
                expected.push(now.value(&set_up, event));
                now = now.follower(event);
            }
            assert_eq!(formulas.values(root, &word), expected, "seed {seed}: {:?} on {word:?}", rule.nodes());
            assert_eq!(untidied(&mut formulas, root, &word), expected, "seed {seed}: {:?} on {word:?}", rule.nodes());
        }
    }
    assert!(wide > 50, "{wide}");
}

/// A rule of at most so many nodes, often with variables under inner binders.
fn small_rule(g: &mut Generator, set_up: &SetUp, most: usize) -> Rule {
    if g.once_in(2) {
        let small = (0..3).map(|_| g.rule_of_binders(set_up)).find(|rule| rule.nodes().len() <= most);
        if let Some(rule) = small {
            return rule;
        }
    }
    let size = g.between(1, most);
    g.rule_of_size(set_up, size)
}

/// The values on a word by the equations alone.
fn untidied(formulas: &mut Formulas, root: Id, word: &[u8]) -> Vec<Value> {
    let mut now = root;
    let mut values = Vec::new();
    for &event in word {
        values.push(formulas.value(now, event));
        now = formulas.follower(now, event);
    }
    values
}

#[test]
fn tidying_changes_no_value() {
    for seed in seeds(300) {
        let mut g = Generator::new(seed);
        let set_up = g.any_set_up();
        let rule = g.rule(&set_up);
        let mut formulas = Formulas::new(set_up.clone());
        let root = formulas.of_rule(&rule);
        let word = g.word(&set_up, 30);
        assert_eq!(formulas.values(root, &word), untidied(&mut formulas, root, &word), "seed {seed}");
    }
}

#[test]
fn long_words_stay_cheap() {
    let set_up = four(2);
    for seed in seeds(5) {
        let mut g = Generator::new(seed);
        let rule = g.rule_of_size(&set_up, 100);
        let mut formulas = Formulas::new(set_up.clone());
        let root = formulas.of_rule(&rule);
        let word = g.word(&set_up, 2000);
        let values = formulas.values(root, &word);
        if let Ok(table) = Table::of_rule(&set_up, &rule) {
            assert_eq!(values, table.run(0, &word).0);
        }
    }
}

#[test]
fn a_rule_is_its_formula_and_so_is_each_follower() {
    let mut written = 0;
    for seed in seeds(400) {
        let mut g = Generator::new(seed);
        let set_up = g.any_set_up();
        let rule = g.rule(&set_up);
        let mut formulas = Formulas::new(set_up.clone());
        let root = formulas.of_rule(&rule);
        assert_eq!(formulas.to_rule(root), Some(rule));
        let word = g.word(&set_up, 12);
        let mut now = root;
        for (index, &event) in word.iter().enumerate() {
            now = formulas.follower(now, event);
            let Some(follower) = formulas.to_rule(now) else { break };
            assert_eq!(Rule::from_bytes(&set_up, &follower.to_bytes()).as_ref(), Ok(&follower));
            if let Ok(table) = Table::of_rule(&set_up, &follower) {
                let rest = &word[index + 1..];
                assert_eq!(table.run(0, rest).0, formulas.values(now, rest), "seed {seed}");
                written += 1;
            }
        }
    }
    assert!(written > 1000, "{written}");
}

#[test]
fn a_table_has_the_values_of_its_rule() {
    let (mut tables, mut wide, mut deep, mut large, mut over) = (0, 0, 0, 0, 0);
    for seed in seeds(1500) {
        let mut g = Generator::new(seed);
        let set_up = g.any_set_up();
        let event = g.below(set_up.events());
        let rule = match g.below(8) {
            0 => g.large_rule(&set_up, event),
            1 | 2 => g.rule_of_loops(&set_up),
            _ => g.rule(&set_up),
        };
        let Ok(table) = Table::of_rule(&set_up, &rule) else {
            over += 1;
            continue;
        };
        tables += 1;
        wide += usize::from(has_variable_under_inner_binder(&rule));
        deep += usize::from(has_most_binders(&rule));
        large += usize::from(table.states() > 64);
        let mut formulas = Formulas::new(set_up.clone());
        let root = formulas.of_rule(&rule);
        // A long rule is one of few events, repeated.
        let far = vec![event as u8; table.states() + 10];
        assert_eq!(table.run(0, &far).0, formulas.values(root, &far), "seed {seed}: {:?}", rule.nodes());
        for _ in 0..4 {
            let length = g.between(1, 40);
            let word = g.word(&set_up, length);
            assert_eq!(table.run(0, &word).0, formulas.values(root, &word), "seed {seed}: {:?}", rule.nodes());
        }
    }
    assert!(tables > 1000 && over > 20, "{tables} tables, {over} over 256 states");
    assert!(wide > 100 && deep > 10, "{wide} tables of wide rules, {deep} with twelve binders on a path");
    assert!(large > 100, "{large} tables of more than 64 states");
}

/// "The demands of a node", as a plain set, kept for each node.
fn demands(rule: &Rule, node: usize, kept: &mut HashMap<usize, BTreeSet<usize>>) -> BTreeSet<usize> {
    if let Some(set) = kept.get(&node) {
        return set.clone();
    }
    let set = match rule.nodes()[node] {
        Node::True => BTreeSet::new(),
        Node::After(_) | Node::Output(..) => BTreeSet::from([node]),
        Node::Both => &demands(rule, node + 1, kept) | &demands(rule, rule.second(node), kept),
        Node::Greatest => demands(rule, node + 1, kept),
        Node::Variable(_) => demands(rule, rule.binder(node), kept),
    };
    kept.insert(node, set.clone());
    set
}

#[test]
fn states_are_the_reached_sets_numbered_by_their_first_word() {
    let mut wide = 0;
    for seed in seeds(300) {
        let mut g = Generator::new(seed);
        let set_up = g.any_set_up();
        let rule = if g.once_in(3) { g.rule_of_loops(&set_up) } else { g.rule(&set_up) };
        let Ok(table) = Table::of_rule(&set_up, &rule) else { continue };
        wide += usize::from(has_variable_under_inner_binder(&rule));
        let mut kept = HashMap::new();
        let mut numbers: HashMap<BTreeSet<usize>, usize> = HashMap::new();
        for word in words(set_up.events(), length_for(set_up.events())) {
            let mut state = demands(&rule, 0, &mut kept);
            for &event in &word {
                state = state
                    .into_iter()
                    .filter(|&node| rule.nodes()[node] == Node::After(event))
                    .flat_map(|node| demands(&rule, node + 1, &mut kept))
                    .collect();
            }
            let next = numbers.len();
            let number = *numbers.entry(state.clone()).or_insert(next);
            assert_eq!(table.run(0, &word).1, number, "seed {seed}: {:?} on {word:?}", rule.nodes());
            for event in 0..set_up.events() {
                let value = state.iter().fold(set_up.top(), |meet, &node| match rule.nodes()[node] {
                    Node::Output(own, value) if usize::from(own) == event => set_up.meet(meet, value),
                    _ => meet,
                });
                assert_eq!(table.entry(number, event).value, value, "seed {seed}");
            }
        }
        assert!(numbers.len() <= table.states());
    }
    assert!(wide > 20, "{wide}");
}

/// A number, or may-be-low and may-be-high with a dot between.
fn written_value(kind: Kind, value: Value) -> String {
    match kind {
        Kind::Numbers => value.to_string(),
        Kind::Register => format!("{}.{}", value % 65_536, value / 65_536),
    }
}

/// Document 01's form of the rule of a table, as nested lists.
fn written(table: &Table, state: usize, path: &mut Vec<usize>) -> Vec<String> {
    if let Some(between) = path.iter().rev().position(|&open| open == state) {
        return vec![format!("X{between}")];
    }
    path.push(state);
    let mut items: Vec<Vec<String>> = Vec::new();
    for event in 0..table.events() {
        let entry = table.entry(state, event);
        let mut after = vec![format!("G{event}")];
        after.extend(written(table, entry.next.into(), path));
        items.push(after);
        items.push(vec![format!("O{event}.{}", written_value(table.kind(), entry.value))]);
    }
    path.pop();
    let mut joined = items.pop().unwrap();
    while let Some(mut item) = items.pop() {
        item.insert(0, "A".to_string());
        item.extend(joined);
        joined = item;
    }
    joined.insert(0, "V".to_string());
    joined
}

/// How many nodes the rule of a state has, and how many states its longest path opens; nothing for over 256 nodes. Each event has a G,
/// an O and two A, but for the last one, which has one A; and there is a V.
fn measured(table: &Table, state: usize, path: &mut Vec<usize>) -> Option<(usize, usize)> {
    if path.contains(&state) {
        return Some((1, path.len()));
    }
    path.push(state);
    let (mut nodes, mut longest) = (4 * table.events(), path.len());
    for event in 0..table.events() {
        let (more, open) = measured(table, table.entry(state, event).next.into(), path)?;
        nodes += more;
        longest = longest.max(open);
    }
    path.pop();
    (nodes <= 256).then_some((nodes, longest))
}

/// How many states the path on event 0 alone opens.
fn opened_on_event_0(table: &Table, start: usize) -> usize {
    let mut path = vec![start];
    loop {
        let next = table.entry(path[path.len() - 1], 0).next.into();
        if path.contains(&next) {
            return path.len();
        }
        path.push(next);
    }
}

#[test]
fn a_written_rule_has_the_values_of_its_state() {
    let (mut rules, mut twelve, mut over, mut deep, mut not_on_event_0, mut large) = (0, 0, 0, 0, 0, 0);
    for seed in seeds(800) {
        let mut g = Generator::new(seed);
        let mut set_up = g.any_set_up();
        while set_up.events() > 3 {
            set_up = g.any_set_up();
        }
        let raw = if g.once_in(2) { g.chain(&set_up) } else { g.table(&set_up) };
        let table = raw.lent().table(&set_up).unwrap();
        let result = characteristic::rule_of(&table, raw.start);
        // 12, then 23 (document 02, F-9).
        let Some((nodes, longest)) = measured(&table, raw.start, &mut Vec::new()) else {
            assert_eq!(result, Err(Refusal::new(12)), "seed {seed}");
            over += 1;
            continue;
        };
        let items = written(&table, raw.start, &mut Vec::new());
        assert_eq!(items.len(), nodes, "seed {seed}");
        if longest > 12 {
            assert_eq!(result, Err(Refusal::new(23)), "seed {seed}");
            deep += 1;
            not_on_event_0 += usize::from(opened_on_event_0(&table, raw.start) <= 12);
            continue;
        }
        let rule = result.unwrap();
        assert_eq!(rule.to_bytes(), bytes_of(set_up.kind(), &items.join(" ")), "seed {seed}");
        rules += 1;
        twelve += usize::from(longest == 12);
        assert_eq!(Rule::from_bytes(&set_up, &rule.to_bytes()).as_ref(), Ok(&rule));
        let again = Table::of_rule(&set_up, &rule).unwrap();
        let binders = rule.nodes().iter().filter(|&&node| node == Node::Greatest).count();
        assert_eq!(again.states(), binders, "seed {seed}");
        let mut formulas = Formulas::new(set_up.clone());
        let root = formulas.of_rule(&rule);
        for _ in 0..4 {
            let word = g.word(&set_up, 40);
            let (values, _) = table.run(raw.start, &word);
            assert_eq!(again.run(0, &word).0, values, "seed {seed}");
            assert_eq!(formulas.values(root, &word), values, "seed {seed}");
        }
        assert_eq!(trial(&set_up, (&table, raw.start), (&again, 0)), Verdict::Passes(Grade::Same));
        assert_eq!(trial(&set_up, (&again, 0), (&table, raw.start)), Verdict::Passes(Grade::Same));
        large += usize::from(table.states() > 64);
        assert!(table.states() > 64 || satisfies(&set_up, &rule, &table, raw.start));
    }
    assert!(large > 20, "{large} rules of tables of more than 64 states");
    assert!(rules > 300 && twelve > 20, "{rules} rules, {twelve} with twelve binders on a path");
    assert!(over > 20 && deep > 20, "{over} over 256 nodes, {deep} over twelve binders on a path");
    assert!(not_on_event_0 > 10, "{not_on_event_0} of {deep} not on event 0 alone");
}

/// The largest simulation between two tables, by definition 1.
fn simulation(set_up: &SetUp, device: &Table, table: &Table) -> BTreeSet<(usize, usize)> {
    let mut related: BTreeSet<(usize, usize)> =
        (0..device.states()).flat_map(|s| (0..table.states()).map(move |t| (s, t))).collect();
    loop {
        let kept: BTreeSet<(usize, usize)> = related
            .iter()
            .copied()
            .filter(|&(s, t)| {
                (0..set_up.events()).all(|event| {
                    let (d, r) = (device.entry(s, event), table.entry(t, event));
                    set_up.at_or_below(d.value, r.value) && related.contains(&(d.next.into(), r.next.into()))
                })
            })
            .collect();
        if kept.len() == related.len() {
            return kept;
        }
        related = kept;
    }
}

/// Whether the device's value is at or below the table's after each event of the word.
fn below_on(set_up: &SetUp, device: (&Table, usize), table: (&Table, usize), word: &[u8]) -> Vec<bool> {
    let (values, limits) = (device.0.run(device.1, word).0, table.0.run(table.1, word).0);
    values.iter().zip(&limits).map(|(&value, &limit)| set_up.at_or_below(value, limit)).collect()
}

#[test]
fn trial_is_simulation_and_satisfaction() {
    let (mut passes, mut fails, mut longest, mut wide, mut deep, mut large) = (0, 0, 0, [0; 2], [0; 2], [0; 2]);
    for seed in seeds(1500) {
        let mut g = Generator::new(seed);
        let set_up = g.any_set_up();
        let event = g.below(set_up.events());
        let rule = match g.below(10) {
            0 => g.large_rule(&set_up, event),
            1 | 2 => g.rule_of_loops(&set_up),
            _ => g.rule(&set_up),
        };
        let Ok(table) = Table::of_rule(&set_up, &rule) else { continue };
        let raw = if g.once_in(3) { g.device(&set_up) } else { g.device_near(&set_up, &table) };
        let device = raw.lent().device(&set_up).unwrap();
        let (ours, theirs) = ((&device, raw.start), (&table, 0));
        let verdict = trial(&set_up, ours, theirs);
        let passed = matches!(verdict, Verdict::Passes(_));
        wide[usize::from(passed)] += usize::from(has_variable_under_inner_binder(&rule));
        deep[usize::from(passed)] += usize::from(has_most_binders(&rule));
        large[usize::from(passed)] += usize::from(table.states() > 64);
        if device.states() * table.states() <= 400 {
            let related = simulation(&set_up, &device, &table);
            assert_eq!(related.contains(&(raw.start, 0)), passed, "seed {seed}");
            for state in 0..device.states() {
                let expected = related.contains(&(state, 0));
                assert_eq!(satisfies(&set_up, &rule, &device, state), expected, "seed {seed}, state {state}");
            }
        }
        assert_eq!(satisfies(&set_up, &rule, &device, raw.start), passed, "seed {seed}");
        let by_distances = first_word(&set_up, ours, theirs);
        match verdict {
            Verdict::Passes(_) => {
                passes += 1;
                assert_eq!(by_distances, None, "seed {seed}");
                let word = g.word(&set_up, 60);
                assert!(below_on(&set_up, ours, theirs, &word).iter().all(|&below| below), "seed {seed}");
            }
            Verdict::Fails(word) => {
                fails += 1;
                longest = longest.max(word.len());
                assert!((1..=16_384).contains(&word.len()));
                assert_eq!(by_distances.as_ref(), Some(&word), "seed {seed}");
                let below = below_on(&set_up, ours, theirs, &word);
                assert_eq!(below.iter().position(|below| !below), Some(word.len() - 1), "seed {seed}");
                if word.len() <= length_for(set_up.events()) {
                    let first = words(set_up.events(), word.len())
                        .into_iter()
                        .find(|word| below_on(&set_up, ours, theirs, word).contains(&false));
                    assert_eq!(first, Some(word), "seed {seed}");
                }
            }
        }
    }
    assert!(passes > 300 && fails > 300 && longest > 5, "{passes} pass, {fails} fail, longest {longest}");
    assert!(wide.iter().all(|&count| count > 50), "of wide rules fail and pass: {wide:?}");
    assert!(deep.iter().all(|&count| count > 5), "of rules with twelve binders on a path fail and pass: {deep:?}");
    assert!(large.iter().all(|&count| count > 20), "of rules of more than 64 states fail and pass: {large:?}");
}

/// All pairs of numbers, or some of a register's values, top and its least value among them.
fn pairs_of_values(g: &mut Generator, set_up: &SetUp) -> Vec<(Value, Value)> {
    let values: Vec<Value> = match &set_up.raw().values {
        RawValues::Numbers(numbers) => (0..numbers.values as Value).collect(),
        RawValues::Register { .. } => (0..16).map(|_| g.value(set_up)).chain([0, set_up.top()]).collect(),
    };
    values.iter().flat_map(|&b| values.iter().map(move |&c| (b, c))).collect()
}

#[test]
fn comparing_values_is_by_meet_and_equality() {
    for seed in seeds(300) {
        let mut g = Generator::new(seed);
        let set_up = g.any_set_up();
        for (b, c) in pairs_of_values(&mut g, &set_up) {
            let comparison = set_up.compare(b, c);
            assert_eq!(comparison == Comparison::NotBelow, set_up.meet(b, c) != b, "seed {seed}");
            assert_eq!(comparison == Comparison::Equal, b == c, "seed {seed}");
            // Each at or below the other: equal.
            assert_eq!(set_up.at_or_below(b, c) && set_up.at_or_below(c, b), b == c, "seed {seed}");
        }
    }
}

/// Whether all words up to a length have equal values. Where they are as long as there are states, all longer words have too.
fn same_on_words(device: (&Table, usize), table: (&Table, usize), length: usize) -> bool {
    words(device.0.events(), length).iter().all(|word| device.0.run(device.1, word).0 == table.0.run(table.1, word).0)
}

/// A rule's table, or any from its state 0.
fn some_table(g: &mut Generator, set_up: &SetUp) -> Option<Table> {
    if g.once_in(2) {
        let rule = g.rule(set_up);
        return Table::of_rule(set_up, &rule).ok();
    }
    g.table(set_up).lent().table(set_up).ok()
}

#[test]
fn same_is_given_exactly_for_equal_values() {
    let (mut same, mut stricter, mut fails, mut decided) = (0, 0, 0, 0);
    for seed in seeds(3000) {
        let mut g = Generator::new(seed);
        let set_up = g.any_set_up();
        let Some(table) = some_table(&mut g, &set_up) else { continue };
        let raw = if g.once_in(6) { g.device(&set_up) } else { g.device_near(&set_up, &table) };
        let device = raw.lent().device(&set_up).unwrap();
        let (ours, theirs) = ((&device, raw.start), (&table, 0));
        let verdict = trial(&set_up, ours, theirs);
        let is_same = verdict == Verdict::Passes(Grade::Same);
        assert_eq!(same_values(&set_up, ours, theirs), is_same, "seed {seed}");
        let length = length_for(set_up.events());
        let on_words = same_on_words(ours, theirs, length);
        if device.states() + table.states() <= length {
            assert_eq!(on_words, is_same, "seed {seed}");
            decided += 1;
        }
        match verdict {
            Verdict::Passes(Grade::Same) => {
                same += 1;
                assert!(on_words, "seed {seed}");
                let word = g.word(&set_up, 60);
                assert_eq!(device.run(raw.start, &word).0, table.run(0, &word).0, "seed {seed}");
            }
            Verdict::Passes(Grade::Stricter) => {
                stricter += 1;
                // The first word on which the table is not at or below the device shows it.
                let word = first_word(&set_up, theirs, ours).expect("the table is above the device somewhere");
                let (value, limit) = (device.run(raw.start, &word).0.pop(), table.run(0, &word).0.pop());
                assert_eq!(set_up.compare(value.unwrap(), limit.unwrap()), Comparison::StrictlyBelow, "seed {seed}");
            }
            Verdict::Fails(_) => fails += 1,
        }
    }
    let counts = [same, stricter, fails, decided];
    assert!(counts.iter().all(|&count| count > 500), "same, stricter, fails, decided by words: {counts:?}");
}

/// The set definition to the letter: V by trying all sets of states.
fn set_of(set_up: &SetUp, rule: &Rule, device: &Table, node: usize, put: &mut HashMap<usize, u64>) -> u64 {
    let all = (1u64 << device.states()) - 1;
    let states = |holds: &dyn Fn(usize) -> bool| (0..device.states()).filter(|&s| holds(s)).map(|s| 1 << s).sum::<u64>();
    match rule.nodes()[node] {
        Node::True => all,
        Node::Variable(_) => put[&rule.binder(node)],
        Node::After(event) => {
            let part = set_of(set_up, rule, device, node + 1, put);
            states(&|s| part & 1 << device.entry(s, event.into()).next != 0)
        }
        Node::Output(event, value) => states(&|s| set_up.at_or_below(device.entry(s, event.into()).value, value)),
        Node::Both => set_of(set_up, rule, device, node + 1, put) & set_of(set_up, rule, device, rule.second(node), put),
        Node::Greatest => {
            let mut union = 0;
            for set in 0..=all {
                put.insert(node, set);
                if set & !set_of(set_up, rule, device, node + 1, put) == 0 {
                    union |= set;
                }
            }
            put.remove(&node);
            union
        }
    }
}

#[test]
fn falling_sets_are_the_set_definition() {
    let (mut judged, mut wide) = (0, 0);
    for seed in seeds(2000) {
        let mut g = Generator::new(seed);
        let set_up = g.any_set_up();
        let rule = small_rule(&mut g, &set_up, 16);
        let raw = g.device(&set_up);
        let binders = rule.nodes().iter().filter(|&&node| node == Node::Greatest).count();
        if raw.states > 3 || binders > 3 {
            continue;
        }
        judged += 1;
        wide += usize::from(has_variable_under_inner_binder(&rule));
        let device = raw.lent().table(&set_up).unwrap();
        let expected = set_of(&set_up, &rule, &device, 0, &mut HashMap::new());
        assert_eq!(satisfying(&set_up, &rule, &device), expected, "seed {seed}: {:?}", rule.nodes());
    }
    assert!(judged > 500 && wide > 80, "{judged} judged, {wide} wide");
}

#[test]
fn conflict_is_no_refusal_and_trial_is_no_equality() {
    let set_up = four(2);
    let rule = Rule::from_bytes(&set_up, &bytes("V A O0.1 G0 X0")).unwrap();
    let table = Table::of_rule(&set_up, &rule).unwrap();
    for (value, passes) in [(0, true), (1, true), (2, false), (3, false)] {
        let rows = [value, 0, 2, 0];
        let device = gurvazze_reference::table::Lent { states: 1, start: 0, bytes: &rows }.table(&set_up).unwrap();
        assert_eq!(trial(&set_up, (&device, 0), (&table, 0)) == Verdict::Passes(Grade::Stricter), passes);
        assert_eq!(satisfies(&set_up, &rule, &device, 0), passes);
    }
}

/// A device with any number of states, by state, then event: value and next state.
struct Device {
    events: usize,
    entries: Vec<(Value, usize)>,
}

impl Device {
    /// Any device.
    fn any(g: &mut Generator, set_up: &SetUp, states: usize) -> Device {
        let entries = (0..states * set_up.events()).map(|_| (g.value(set_up), g.below(states))).collect();
        Device { events: set_up.events(), entries }
    }

    /// At least so many states: copies of a table, where each next state is that of the table in any of the copies.
    fn copies(g: &mut Generator, table: &Table, states: usize) -> Device {
        let copies = states.div_ceil(table.states());
        let copy = |g: &mut Generator| table.states() * g.below(copies);
        let entries = table.entries().repeat(copies);
        let entries = entries.iter().map(|entry| (entry.value, copy(g) + usize::from(entry.next))).collect();
        Device { events: table.events(), entries }
    }

    /// One in so many values lowered.
    fn lower(&mut self, g: &mut Generator, set_up: &SetUp, times: usize) {
        for entry in &mut self.entries {
            if g.once_in(times) {
                entry.0 = set_up.meet(entry.0, g.value(set_up));
            }
        }
    }

    fn states(&self) -> usize {
        self.entries.len() / self.events
    }

    /// The root's set by the set definition, for each state whether it is in it. All sets start full and fall until nothing changes.
    fn satisfying(&self, set_up: &SetUp, rule: &Rule) -> Vec<bool> {
        let entry = |state: usize, event: u8| self.entries[state * self.events + usize::from(event)];
        let mut sets = vec![vec![true; self.states()]; rule.nodes().len()];
        loop {
            let before = sets.clone();
            for (number, node) in rule.nodes().iter().enumerate().rev() {
                for state in 0..self.states() {
                    sets[number][state] = match *node {
                        Node::True => true,
                        Node::Variable(_) => sets[rule.binder(number)][state],
                        Node::After(event) => sets[number + 1][entry(state, event).1],
                        Node::Output(event, value) => set_up.at_or_below(entry(state, event).0, value),
                        Node::Both => sets[number + 1][state] && sets[rule.second(number)][state],
                        Node::Greatest => sets[number + 1][state],
                    };
                }
            }
            if sets == before {
                return sets.swap_remove(0);
            }
        }
    }
}

/// Two rules and their tables, the first of at most 64 states.
fn pair(g: &mut Generator) -> Option<(SetUp, [(Rule, Table); 2])> {
    let set_up = g.any_set_up();
    let (first, second) = g.pair_of_rules(&set_up);
    let tables = (Table::of_rule(&set_up, &first).ok()?, Table::of_rule(&set_up, &second).ok()?);
    if tables.0.states() > 64 {
        assert_eq!(covers(set_up.raw(), &first.to_bytes(), &second.to_bytes()), Err(Refusal::new(11)));
        return None;
    }
    Some((set_up, [(first, tables.0), (second, tables.1)]))
}

fn covering(set_up: &SetUp, first: &Rule, second: &Rule) -> Option<Vec<u8>> {
    covers(set_up.raw(), &first.to_bytes(), &second.to_bytes()).expect("both rules have tables")
}

#[test]
fn sets_of_any_device_are_those_of_a_small_one() {
    for seed in seeds(500) {
        let mut g = Generator::new(seed);
        let Some((set_up, pair)) = pair(&mut g) else { continue };
        for (table, rule) in pair.iter().flat_map(|(_, table)| pair.iter().map(move |(rule, _)| (table, rule))) {
            if table.states() > 64 {
                continue;
            }
            let expected = satisfying(&set_up, rule, table);
            let found = Device::copies(&mut g, table, 1).satisfying(&set_up, rule);
            assert!((0..table.states()).all(|state| found[state] == (expected >> state & 1 == 1)), "seed {seed}");
        }
    }
}

/// Document 02, F-14: "every finite device satisfying the first satisfies the second, also one larger than a trial takes".
#[test]
fn a_rule_that_covers_another_binds_every_device() {
    let (mut pairs, mut satisfied, mut large, mut telling) = (0, 0, 0, 0);
    for seed in seeds(1500) {
        let mut g = Generator::new(seed);
        let Some((set_up, [(first, table), (second, _)])) = pair(&mut g) else { continue };
        if covering(&set_up, &first, &second).is_some() {
            continue;
        }
        pairs += 1;
        for _ in 0..4 {
            let states = g.between(1, 150);
            let mut device = match g.below(4) {
                0 => Device::any(&mut g, &set_up, states),
                _ => Device::copies(&mut g, &table, states),
            };
            if !g.once_in(3) {
                let times = g.between(1, 4);
                device.lower(&mut g, &set_up, times);
            }
            if g.once_in(2) {
                let at = g.below(device.entries.len());
                device.entries[at].0 = g.value(&set_up);
            }
            let (by_first, by_second) = (device.satisfying(&set_up, &first), device.satisfying(&set_up, &second));
            let binds = |state: usize| by_second[state] || !by_first[state];
            assert!((0..device.states()).all(binds), "seed {seed}: {:?} {:?}", first.nodes(), second.nodes());
            satisfied += usize::from(by_first[0]);
            large += usize::from(by_first[0] && device.states() > 64);
            telling += usize::from(by_first[0] && by_second.contains(&false));
        }
    }
    let counts = [pairs, satisfied, large, telling];
    assert!(counts.iter().all(|&count| count > 500), "pairs, satisfied, large, not satisfied everywhere: {counts:?}");
}

/// Document 02, F-14: its own table satisfies a rule; it does not satisfy one that the rule does not cover, nor do copies of it.
#[test]
fn a_rule_that_covers_no_other_has_a_device_that_shows_it() {
    let (mut pairs, mut longest) = (0, 0);
    for seed in seeds(1500) {
        let mut g = Generator::new(seed);
        let Some((set_up, [(first, table), (second, other)])) = pair(&mut g) else { continue };
        let Some(word) = covering(&set_up, &first, &second) else { continue };
        pairs += 1;
        longest = longest.max(word.len());
        assert!(satisfies(&set_up, &first, &table, 0), "seed {seed}");
        assert!(!satisfies(&set_up, &second, &table, 0), "seed {seed}");
        let below = below_on(&set_up, (&table, 0), (&other, 0), &word);
        assert_eq!(below.iter().position(|below| !below), Some(word.len() - 1), "seed {seed}");
        assert_eq!(first_word(&set_up, (&table, 0), (&other, 0)), Some(word), "seed {seed}");
        let device = Device::copies(&mut g, &table, 65);
        assert!(device.satisfying(&set_up, &first)[0] && !device.satisfying(&set_up, &second)[0], "seed {seed}");
    }
    assert!(pairs > 300 && longest > 5, "{pairs} pairs, longest word {longest}");
}

/// The meets of the values of two tables on a word.
fn meets(set_up: &SetUp, [first, second]: [&[Value]; 2]) -> Vec<Value> {
    first.iter().zip(second).map(|(&b, &c)| set_up.meet(b, c)).collect()
}

/// Document 02, F-14: "joining two rules by A gives, on each event sequence, the meet of their two values". So it has the first's values
/// exactly if they are at or below the second's, where the first covers the second.
#[test]
fn joined_rules_have_the_meet_of_both_values() {
    let (mut covered, mut uncovered, mut over) = (0, 0, 0);
    for seed in seeds(2500) {
        let mut g = Generator::new(seed);
        let Some((set_up, [(first, table), (second, other)])) = pair(&mut g) else { continue };
        let both = joined(set_up.kind(), &first.to_bytes(), &second.to_bytes());
        let node_bytes = if set_up.kind() == Kind::Register { 6 } else { 3 };
        assert_eq!(both.len(), node_bytes * (1 + first.nodes().len() + second.nodes().len()));
        let Ok(both) = Rule::from_bytes(&set_up, &both) else { continue };
        let mut formulas = Formulas::new(set_up.clone());
        let roots = [&both, &first, &second].map(|rule| formulas.of_rule(rule));
        for _ in 0..4 {
            let word = g.word(&set_up, 40);
            let [joined, first, second] = roots.map(|root| formulas.values(root, &word));
            assert_eq!(joined, meets(&set_up, [&first, &second]), "seed {seed}");
        }
        let Ok(of_both) = Table::of_rule(&set_up, &both) else {
            over += 1;
            continue;
        };
        for word in words(set_up.events(), length_for(set_up.events())) {
            let expected = meets(&set_up, [&table.run(0, &word).0, &other.run(0, &word).0]);
            assert_eq!(of_both.run(0, &word).0, expected, "seed {seed}");
        }
        let is_covered = covering(&set_up, &first, &second).is_none();
        assert_eq!(same_values(&set_up, (&of_both, 0), (&table, 0)), is_covered, "seed {seed}");
        *if is_covered { &mut covered } else { &mut uncovered } += 1;
    }
    assert!(covered > 300 && uncovered > 300 && over > 5, "{covered} covered, {uncovered} not, {over} over 256 states");
}
