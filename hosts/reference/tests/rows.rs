//! One store of rows for the tool (document 02, F-12), by the tool and by the log, worked out by hand.

mod common;

use common::{bytes, joined_loops, reading, steps, table, Both, WHEEL};
use gurvazze_reference::table::Entry;
use gurvazze_reference::tool::{Answer, Call, Channel, Tool, CHANNELS};
use gurvazze_reference::values::{SetUp, Value};
use gurvazze_reference::Refusal;

fn refused<T>(number: u8) -> Result<T, Refusal> {
    Err(Refusal::new(number))
}

/// Event 0 so many times less one, then a value: so many states and one more. The value is that of the last of them.
fn value_after(count: usize, value: Value) -> String {
    "G0 ".repeat(count - 1) + &format!("O0.{value}")
}

/// The values of a channel on its next events.
fn values(both: &mut Both, channel: usize, count: usize) -> Vec<Value> {
    (0..count).map(|_| both.event(channel, 0, 0).unwrap().value).collect()
}

/// Top, but for one event.
fn top_but(count: usize, at: usize, value: Value) -> Vec<Value> {
    (0..count).map(|index| if index + 1 == at { value } else { 3 }).collect()
}

fn rows(both: &Both) -> [usize; CHANNELS] {
    std::array::from_fn(|channel| both.tool.channels[channel].states)
}

/// "The tool now has 512 rows among its channels".
#[test]
fn two_long_rules_fill_the_tool() {
    for events in [1, 2, 16] {
        let mut both = Both::new(events, WHEEL);
        assert_eq!(both.load(0, &steps(255)), Ok(None));
        assert_eq!(both.load(1, &steps(255)), Ok(None));
        assert_eq!(rows(&both), [256, 256, 0, 0, 0, 0, 0, 0]);
        // One row more.
        for channel in 2..CHANNELS {
            assert_eq!(both.load(channel, "T"), refused(25));
        }
        // An empty channel stays empty, and may be cleared.
        assert_eq!(both.event(7, 0, 0), refused(15));
        assert_eq!(both.clear(7), Ok(None));
        assert_eq!(both.load(7, "T"), refused(25));
        // What is there goes on.
        assert_eq!(both.event(0, 0, 5), Ok(reading(3, 5, 0)));
        assert_eq!(both.call(Call::RestartOne { channel: 1 }), Ok(None));
        assert_eq!(both.call(Call::RestartAll), Ok(None));
        // A row less makes room for one.
        assert_eq!(both.load(1, &steps(254)), Ok(None));
        assert_eq!(both.load(7, "O0.1"), refused(25));
        assert_eq!(both.load(7, "T"), Ok(None));
        assert_eq!(both.load(6, "T"), refused(25));
        assert_eq!(rows(&both), [256, 255, 0, 0, 0, 0, 0, 1]);
    }
}

/// The eight channels share them in any way.
#[test]
fn rows_among_all_channels() {
    let mut both = Both::new(2, WHEEL);
    for channel in 0..CHANNELS {
        assert_eq!(both.load(channel, &steps(63)), Ok(None));
    }
    assert_eq!(rows(&both), [64; CHANNELS]);
    for channel in 0..CHANNELS {
        // Its own 64 rows are free: as many again, and no more.
        assert_eq!(both.load(channel, &steps(64)), refused(25));
        assert_eq!(both.load(channel, &value_after(63, 1)), Ok(None));
    }
    for (channel, states) in [(3, 1), (0, 127), (5, 10), (7, 118)] {
        assert_eq!(both.load(channel, &steps(states - 1)), Ok(None), "{states}");
    }
    assert_eq!(rows(&both), [127, 64, 64, 1, 64, 10, 64, 118]);
    assert_eq!(rows(&both).iter().sum::<usize>(), 512);
    assert_eq!(both.load(3, &steps(1)), refused(25));
    assert_eq!(both.load(3, "T"), Ok(None));
}

/// "rows of the other channels plus those of the new table": a channel's own old rows do not count.
#[test]
fn a_channels_own_rows_are_free() {
    let mut both = Both::new(1, WHEEL);
    both.load(0, &steps(255)).unwrap();
    both.load(4, &steps(255)).unwrap();
    for _ in 0..3 {
        for channel in [0, 4] {
            assert_eq!(both.load(channel, &value_after(255, 2)), Ok(None));
            assert_eq!(values(&mut both, channel, 300), top_but(300, 255, 2));
        }
    }
}

/// 256 states replaced by 3 and back, first, last and between others: those keep their tables, states and totals.
#[test]
fn long_replaced_by_short_and_back_with_its_neighbours_replayed() {
    for events in [1, 2, 3, 16] {
        for long in 0..CHANNELS {
            replace_and_replay(events, long);
        }
    }
}

fn replace_and_replay(events: usize, long: usize) {
    let mut both = Both::new(events, WHEEL);
    let others: Vec<usize> = (0..CHANNELS).filter(|&channel| channel != long).collect();
    // Each has 30 and some states, and a value of its own at its end; together with the long one 512 rows or nearly.
    let length = |channel: usize| 30 + channel;
    let value = |channel: usize| (channel % 3) as Value;
    for &channel in &others {
        both.load(channel, &value_after(length(channel) - 1, value(channel))).unwrap();
    }
    // Half of their events come before the long rule, the rest while it comes and goes.
    let mut met: Vec<Vec<Value>> = vec![Vec::new(); CHANNELS];
    let mut replay = |both: &mut Both, count: usize| {
        for &channel in &others {
            met[channel].extend(values(both, channel, count));
        }
    };
    replay(&mut both, 10);
    both.load(long, &value_after(255, 1)).unwrap();
    replay(&mut both, 5);
    assert_eq!(values(&mut both, long, 100), [3; 100]);
    both.load(long, &value_after(2, 2)).unwrap();
    replay(&mut both, 5);
    assert_eq!(values(&mut both, long, 5), [3, 2, 3, 3, 3]);
    both.load(long, &value_after(255, 0)).unwrap();
    replay(&mut both, 5);
    assert_eq!(values(&mut both, long, 300), top_but(300, 255, 0));
    both.clear(long).unwrap();
    replay(&mut both, 15);
    for &channel in &others {
        assert_eq!(met[channel], top_but(40, length(channel) - 1, value(channel)), "channel {channel}");
    }
    // Restarted, they begin anew.
    both.call(Call::RestartAll).unwrap();
    for &channel in &others {
        assert_eq!(values(&mut both, channel, 40), top_but(40, length(channel) - 1, value(channel)), "channel {channel}");
    }
}

/// "Clear frees" the rows; so does a shorter rule.
#[test]
fn clearing_in_the_middle_frees_rows() {
    let mut both = Both::new(2, WHEEL);
    for (channel, states) in [(1, 100), (3, 200), (5, 212)] {
        both.load(channel, &value_after(states - 1, channel as Value % 3)).unwrap();
    }
    assert_eq!(both.load(0, "T"), refused(25));
    both.event(5, 0, 9).unwrap();
    both.clear(3).unwrap();
    assert_eq!(both.load(0, &steps(200)), refused(25));
    assert_eq!(both.load(0, &steps(199)), Ok(None));
    assert_eq!(both.load(3, "T"), refused(25));
    assert_eq!(values(&mut both, 1, 120), top_but(120, 99, 1));
    assert_eq!(values(&mut both, 5, 220), top_but(221, 211, 2)[1..]);
    both.clear(1).unwrap();
    both.load(0, "T").unwrap();
    assert_eq!(both.load(3, &steps(255)), Ok(None));
    assert_eq!(rows(&both), [1, 0, 0, 256, 0, 212, 0, 0]);
    assert_eq!(both.load(1, &steps(43)), refused(25));
    assert_eq!(both.load(1, &steps(42)), Ok(None));
}

/// "25 ... after 10 on loading": the rule's own refusals come first, whatever the rows.
#[test]
fn twenty_five_comes_last_on_loading() {
    let mut both = Both::new(2, WHEEL);
    both.load(0, &steps(255)).unwrap();
    both.load(1, &steps(255)).unwrap();
    for (items, refusal) in [
        ("", Refusal::new(5)),
        ("G2 T", Refusal::at(6, 0)),
        ("A T", Refusal::at(7, 2)),
        ("X0", Refusal::at(8, 0)),
        ("V V V V V V V V V V V V V T", Refusal::new(23)),
        ("V X0", Refusal::at(9, 1)),
        (&joined_loops(16, 17), Refusal::new(10)),
        (&joined_loops(15, 17), Refusal::new(25)),
        ("T", Refusal::new(25)),
    ] {
        assert_eq!(both.load(2, items), Err(refusal), "{items}");
        assert_eq!(both.load(8, items), refused(14), "{items}");
    }
    // In a channel of its own it has room.
    assert_eq!(both.load(0, &joined_loops(15, 17)), Ok(None));
}

/// The entries of a chain of so many states.
fn chain(set_up: &SetUp, states: usize) -> Channel {
    let made = table(set_up, &steps(states - 1)).unwrap();
    Channel { states, current: 0, entries: made.into_entries(), total: 0 }
}

/// Each of the five calls, on one channel.
fn calls(channel: usize) -> Vec<Call> {
    vec![
        Call::Load { channel, rule: bytes("T") },
        Call::Load { channel, rule: Vec::new() },
        Call::Event { channel, event: 0, pulses: 1 },
        Call::Event { channel, event: 99, pulses: 1 },
        Call::RestartOne { channel },
        Call::RestartAll,
        Call::Clear { channel },
    ]
}

fn answers(tool: &Tool, channel: usize) -> Vec<Answer> {
    let answer = |call: Call| {
        let mut after = tool.clone();
        let answer = after.call(&call);
        assert!(answer.is_ok() || after == *tool, "a refused call changes nothing");
        answer
    };
    calls(channel).into_iter().map(answer).collect()
}

/// "for a handed-in tool whose loaded tables exceed 512, after 17": on every call, before 14 and 15, and clearing does not help.
#[test]
fn handed_in_tools_with_too_many_rows() {
    let both = Both::new(2, WHEEL);
    let set_up = SetUp::new(both.tool.set_up.clone()).unwrap();
    let with = |states: &[usize]| {
        let mut tool = both.tool.clone();
        for (channel, &states) in tool.channels.iter_mut().zip(states).filter(|(_, &states)| states > 0) {
            *channel = chain(&set_up, states);
        }
        tool
    };
    for states in [vec![256, 256], vec![64; 8], vec![1, 0, 255, 0, 256], vec![0, 256, 0, 0, 0, 0, 0, 256]] {
        let full = with(&states);
        assert!(answers(&full, 0)[2..].iter().all(|answer| *answer != refused(25)), "{states:?}");
        // One row more, wherever it is.
        for channel in 0..CHANNELS {
            if states.get(channel).is_some_and(|&states| states == 256) {
                continue;
            }
            let mut more = states.clone();
            more.resize(CHANNELS, 0);
            more[channel] += 1;
            let tool = with(&more);
            for named in [0, 1, 2, 7, 8, 255, usize::MAX] {
                assert_eq!(answers(&tool, named), [refused(25); 7], "{more:?} {named}");
            }
        }
    }
}

/// 17 comes before 25 where the named channel, or any for restart all, or the set-up is spoilt; another's damage is not seen, its rows are.
#[test]
fn seventeen_comes_before_25() {
    let both = Both::new(2, WHEEL);
    let set_up = SetUp::new(both.tool.set_up.clone()).unwrap();
    let mut tool = both.tool.clone();
    tool.channels[0] = chain(&set_up, 256);
    tool.channels[1] = chain(&set_up, 256);
    tool.channels[2] = chain(&set_up, 1);
    let mut spoilt = tool.clone();
    spoilt.channels[2].current = 1;
    assert_eq!(answers(&spoilt, 2), [refused(17); 7]);
    let mut on_another = [refused(25); 7];
    on_another[5] = refused(17);
    assert_eq!(answers(&spoilt, 0), on_another);
    assert_eq!(answers(&spoilt, 8), on_another);
    spoilt = tool.clone();
    spoilt.wheel.pulses = 0;
    assert_eq!(answers(&spoilt, 0), [refused(17); 7]);
    assert_eq!(answers(&spoilt, 8), [refused(17); 7]);
    // A table of more than 256 states is 17 where it is named; elsewhere only its rows count.
    for states in [257, 300, 511, 512, 513, 65_535, usize::MAX] {
        let mut tool = both.tool.clone();
        tool.channels[3] = chain(&set_up, 1);
        tool.channels[5].states = states;
        tool.channels[5].entries = vec![Entry { value: 0, next: 0 }; 2 * states.min(600)];
        assert_eq!(answers(&tool, 5), [refused(17); 7], "{states}");
        let sees_it = states > 511;
        for named in [0, 3, 8] {
            let answers = answers(&tool, named);
            let too_many = answers.iter().filter(|answer| **answer == refused(25)).count();
            assert_eq!(answers[5], refused(17), "{states}");
            // With 511 rows, and one in channel 3, there is room for one in channel 3 and for none in channel 0.
            let no_room = usize::from(states == 511 && named == 0);
            assert_eq!(too_many, if sees_it { 6 } else { no_room }, "{states} {named}");
        }
    }
    // An empty channel has no rows, whatever it holds.
    let mut odd = both.tool.clone();
    odd.channels[0] = chain(&set_up, 256);
    odd.channels[1] = chain(&set_up, 256);
    odd.channels[2] = Channel { states: 0, ..chain(&set_up, 256) };
    assert_eq!(odd.event(0, 0, 0), Ok(reading(3, 0, 0)));
    assert_eq!(odd.event(2, 0, 0), refused(15));
    assert_eq!(odd.load(2, &bytes("T")), refused(25));
    assert_eq!(odd.load(1, &bytes(&steps(254))), Ok(()));
    assert_eq!(odd.load(2, &bytes("T")), Ok(()));
}
