//! The tool against the log, on random lists of calls; distances (document 02, F-6), and rows (F-12).

mod common;

use common::seeds;
use gurvazze_reference::generate::Generator;
use gurvazze_reference::table::{Entry, Table};
use gurvazze_reference::tool::{Answer, Call, Channel, Log, Tool, CHANNELS, MAX_ROWS, MAX_TOTAL};
use gurvazze_reference::values::{RawValues, SetUp, Value};
use gurvazze_reference::Refusal;

fn run(tool: &mut Tool, calls: &[Call]) -> Vec<Answer> {
    calls
        .iter()
        .map(|call| {
            let before = tool.clone();
            let answer = tool.call(call);
            if answer.is_err() {
                assert_eq!(*tool, before, "a refused call changes nothing");
            }
            // No other channel moves, but for restart all.
            if let Some(named) = call.channel() {
                for other in (0..CHANNELS).filter(|&other| other != named) {
                    assert_eq!(tool.channels[other], before.channels[other]);
                }
            }
            answer
        })
        .collect()
}

/// A list of calls, at times one that begins with about 256 events up to the limit of a total, or one about as many rows as there may be.
fn calls(g: &mut Generator, set_up: &SetUp, length: usize) -> Vec<Call> {
    match g.below(8) {
        0 | 1 => g.calls_about_limit(set_up, length),
        2 | 3 => g.calls_about_rows(set_up, 5 * length),
        _ => g.calls(set_up, length),
    }
}

/// How many rows the loaded channels have.
fn rows(tool: &Tool) -> usize {
    tool.channels.iter().map(|channel| channel.states).sum()
}

#[test]
fn the_tool_equals_the_log() {
    let mut numbers = [0; 26];
    let (mut readings, mut rests, mut full, mut all_rows, mut large) = (0, 0, 0, 0, 0);
    for seed in seeds(150) {
        let mut g = Generator::new(seed);
        let (set_up, wheel) = (g.any_set_up(), g.wheel());
        let length = if g.once_in(20) { 0 } else { g.between(1, 150) };
        let calls = calls(&mut g, &set_up, length);
        let mut tool = Tool::new(set_up.raw().clone(), wheel).unwrap();
        let mut log = Log::new(set_up.raw().clone(), wheel).unwrap();
        for call in &calls {
            let answer = &run(&mut tool, std::slice::from_ref(call))[0];
            assert_eq!(*answer, log.call(call), "seed {seed}: {call:?}");
            assert!(rows(&tool) <= 512, "seed {seed}: {call:?}");
            if let (Call::Load { channel, .. }, Ok(_)) = (call, answer) {
                all_rows += usize::from(rows(&tool) == 512);
                large += usize::from(tool.channels[*channel].states > 64);
            }
            match (call, answer) {
                (_, Err(refusal)) => numbers[usize::from(refusal.number)] += 1,
                (Call::Event { channel, .. }, Ok(Some(reading))) => {
                    readings += 1;
                    rests += usize::from(reading.distance.rest > 0);
                    full += usize::from(log.record(*channel).unwrap().total() == MAX_TOTAL);
                }
                (_, answer) => assert_eq!(*answer, Ok(None)),
            }
        }
        // "After the list a channel is empty exactly where the log has nothing; elsewhere it has the table of the rule there
        // and the state that its events reach from state 0."
        for (number, channel) in tool.channels.iter().enumerate() {
            match log.record(number) {
                None => assert_eq!(*channel, Channel::default()),
                Some(record) => {
                    let table = Table::of_rule(&set_up, record.rule()).unwrap();
                    assert_eq!((channel.states, &channel.entries[..]), (table.states(), table.entries()));
                    assert_eq!(channel.current, table.run(0, record.events()).1);
                    assert_eq!(channel.total, record.total());
                    assert_eq!(channel.states, record.rows());
                }
            }
        }
    }
    assert!(
        readings > 10_000 && rests > 5000 && full > 50,
        "{readings} readings, {rests} with a remainder, {full} at the limit"
    );
    assert!(all_rows > 50 && large > 200, "{all_rows} loads to 512 rows, {large} of more than 64 states");
    for number in [5, 6, 7, 8, 9, 10, 14, 15, 16, 19, 23] {
        assert!(numbers[number] > 5, "{number} hardly arose: {numbers:?}");
    }
    assert!(numbers[25] > 200, "25 hardly arose: {numbers:?}");
    assert_eq!(numbers[17], 0);
}

/// "from equal set-ups, after the same accepted loads and calls on a channel in the same order, restart all being one on every channel, its
/// events answer the same whatever calls named the others" (document 02, F-12). "Distances obey the same independence of channels as
/// values."
#[test]
fn other_channels_do_not_matter_to_accepted_loads_and_calls() {
    let mut struck = 0;
    for seed in seeds(60) {
        let mut g = Generator::new(seed);
        let (set_up, wheel) = (g.any_set_up(), g.wheel());
        let calls = calls(&mut g, &set_up, 80);
        let mut whole = Tool::new(set_up.raw().clone(), wheel).unwrap();
        let answers = run(&mut whole, &calls);
        for channel in 0..CHANNELS {
            let concerns = |call: &Call| call.channel().is_none_or(|named| named == channel);
            // A load that 25 refused may be accepted without the other channels.
            let (kept, expected): (Vec<Call>, Vec<Answer>) = calls
                .iter()
                .zip(&answers)
                .filter(|&(call, answer)| concerns(call) && *answer != Err(Refusal::new(25)))
                .map(|(call, answer)| (call.clone(), *answer))
                .unzip();
            struck += calls.iter().filter(|call| concerns(call)).count() - kept.len();
            let mut alone = Tool::new(set_up.raw().clone(), wheel).unwrap();
            assert_eq!(run(&mut alone, &kept), expected, "seed {seed}, channel {channel}");
            assert_eq!(alone.channels[channel], whole.channels[channel]);
        }
    }
    assert!(struck > 100, "{struck} loads were refused by 25");
}

/// "Whether a load is accepted may depend on the row totals of others, and on nothing else of theirs" (document 02, F-12).
#[test]
fn a_load_depends_on_the_row_total_of_the_others_alone() {
    let (mut accepted, mut refused) = (0, 0);
    for seed in seeds(150) {
        let mut g = Generator::new(seed);
        let (set_up, event) = (g.any_set_up(), 0);
        let named = g.below(CHANNELS);
        let others: Vec<usize> = (0..CHANNELS).filter(|&channel| channel != named).collect();
        let total = g.between(200, MAX_ROWS);
        // The same total, parted among the others in two ways, with calls of any kind on them.
        let [first, second] = [0, 1].map(|_| {
            let mut tool = Tool::new(set_up.raw().clone(), g.wheel()).unwrap();
            let mut left = total;
            for (index, &channel) in others.iter().enumerate() {
                let least = left.saturating_sub(256 * (others.len() - 1 - index));
                let states = g.between(least, left.min(256));
                left -= states;
                if states > 0 {
                    tool.load(channel, &g.rule_of_states(&set_up, event, states).to_bytes()).unwrap();
                    tool.event(channel, event, 7).unwrap();
                }
            }
            assert_eq!((left, rows(&tool)), (0, total));
            tool
        });
        for states in [MAX_ROWS - total, MAX_ROWS - total + 1, g.between(1, 256)].map(|states| states.clamp(1, 256)) {
            let rule = g.rule_of_states(&set_up, event, states).to_bytes();
            let [one, other] = [&first, &second].map(|tool| tool.clone().load(named, &rule));
            assert_eq!(one, other, "seed {seed}");
            assert_eq!(one, if states > MAX_ROWS - total { Err(Refusal::new(25)) } else { Ok(()) }, "seed {seed}");
            *if one.is_ok() { &mut accepted } else { &mut refused } += 1;
        }
    }
    assert!(accepted > 100 && refused > 100, "{accepted} accepted, {refused} refused");
}

/// Whether a value is one of the set-up's, to the letter: a number below that of its values, or two numbers below 2^lines.
fn is_value(tool: &Tool, value: Value) -> bool {
    match &tool.set_up.values {
        RawValues::Numbers(numbers) => (value as usize) < numbers.values,
        RawValues::Register { lines } => (value % 65_536) < 1 << lines && (value / 65_536) < 1 << lines,
    }
}

/// Whether 11's limits, and those of the current state and of the total, hold of a channel, to the letter.
fn is_sound(tool: &Tool, channel: &Channel) -> bool {
    let states = channel.states;
    states == 0
        || states <= 256
            && channel.entries.len() == states * tool.set_up.events
            && channel.entries.iter().all(|entry| is_value(tool, entry.value))
            && channel.entries.iter().all(|entry| usize::from(entry.next) < states)
            && channel.current < states
            && channel.total <= 1_099_511_627_776
}

/// Whether the set-up and its wheel are in order, to the letter for the wheel.
fn is_set_up(tool: &Tool) -> bool {
    let numbers = [tool.wheel.pulses, tool.wheel.millimetres];
    tool.set_up.check().is_ok() && numbers.into_iter().all(|number| (1..=65_535).contains(&number))
}

/// 17, and straight after it 25: "for a handed-in tool whose loaded tables exceed 512, after 17" (document 02, F-12).
#[test]
fn spoilt_tools_are_17_or_25() {
    let (mut refused, mut accepted, mut too_many) = (0, 0, 0);
    for seed in seeds(300) {
        let mut g = Generator::new(seed);
        let set_up = g.any_set_up();
        let mut tool = Tool::new(set_up.raw().clone(), g.wheel()).unwrap();
        let calls = if g.once_in(2) { g.calls_about_rows(&set_up, 80) } else { g.calls(&set_up, 40) };
        run(&mut tool, &calls);
        // At times another channel has more rows, in order or not.
        if g.once_in(2) {
            let channel = &mut tool.channels[g.between(2, CHANNELS - 1)];
            channel.states = g.one_of(&[1, 64, 255, 256, 257, 512, 513, 65_535, usize::MAX]);
            channel.entries = vec![Entry { value: 0, next: 0 }; channel.states.min(600) * set_up.events()];
            channel.current = 0;
        }
        let number = g.below(2);
        let channel = &mut tool.channels[number];
        match g.below(10) {
            0 => tool.set_up = g.damaged_set_up_of(set_up.kind()),
            7 => tool.wheel = g.damaged_wheel(),
            8 | 9 => channel.total = g.one_of(&[0, MAX_TOTAL - 1, MAX_TOTAL, MAX_TOTAL + 1, u64::MAX]),
            1 => channel.current = g.below(channel.states.max(1) + 2),
            2 => channel.states = g.one_of(&[0, 1, 2, 3, 5, 64, 65, 255, 256, 257, 65_535]),
            3 => drop(channel.entries.pop()),
            4 if !channel.entries.is_empty() => {
                let at = g.below(channel.entries.len());
                // Often a number of no byte, or a bit above the lines.
                channel.entries[at].value = g.bits() as Value >> g.one_of(&[0, 16, 24, 28]);
            }
            5 if !channel.entries.is_empty() => {
                let at = g.below(channel.entries.len());
                channel.entries[at].next = g.bits() as u8;
            }
            _ => channel.states = 0,
        }
        let spoilt = tool.clone();
        for call in g.calls(&set_up, 12) {
            let mut tool = spoilt.clone();
            let looked_at = match call.channel() {
                Some(named) => tool.channels.get(named).into_iter().collect::<Vec<_>>(),
                None => tool.channels.iter().collect(),
            };
            let sound = is_set_up(&tool) && looked_at.into_iter().all(|channel| is_sound(&tool, channel));
            let in_all = tool.channels.iter().map(|channel| channel.states as u128).sum::<u128>();
            let answer = tool.call(&call);
            assert_eq!(answer == Err(Refusal::new(17)), !sound, "seed {seed}: {call:?}");
            if sound && in_all > 512 {
                assert_eq!(answer, Err(Refusal::new(25)), "seed {seed}: {call:?}");
                too_many += 1;
            } else if answer == Err(Refusal::new(25)) {
                assert!(matches!(call, Call::Load { .. }), "seed {seed}: {call:?}");
            }
            if answer.is_err() {
                assert_eq!(tool, spoilt);
            }
            *if sound { &mut accepted } else { &mut refused } += 1;
        }
    }
    assert!(refused > 500 && accepted > 500 && too_many > 300, "{refused} are 17, {accepted} not, {too_many} are 25");
}
