//! Calls on a tool of either kind of values, which the library does not export. The programs `event_calls` and `load_calls` make many of them;
//! their processor time is all but that of the calls. They are two, since with both kinds of calls in one program each event cost a copy of
//! the tool more.

use std::hint::black_box;
use std::io::Write;
use std::path::Path;
use std::process::{Command, Stdio};

use gurvazze_reference::formula::Node;
use gurvazze_reference::generate::Generator;
use gurvazze_reference::tool::{Reading, Tool, Wheel};
use gurvazze_reference::values::{Kind, RawNumbers, RawValues, SetUp, Value};

use crate::plain;
use crate::rules::{bytes_of, chain, four, lines};
use crate::timing::{processor_time, programs_time, Report};

const PROGRAM: &str = "../crates/event_calls/out/event_calls";
const LOAD_PROGRAM: &str = "../crates/load_calls/out/load_calls";
/// So many events are played so many times over, with so many pulses each.
const EVENTS: usize = 4096;
const EVENT_ROUNDS: usize = 256;
const REPLAY_ROUNDS: usize = 16_384;
const PULSES: u32 = 3;
const LOAD_ROUNDS: usize = 16_384;
const WHEEL: Wheel = Wheel { pulses: 7, millimetres: 9 };

/// How the program plays events: by its first byte.
#[derive(Clone, Copy)]
enum How {
    Event,
    Replay,
    ReplayWithPulses,
}

/// The rows of calls on a tool. They are left out where `rt run`, in the folders of the programs, has not made them.
pub fn calls(report: &mut Report) {
    report.section("calls on a tool, 2 states and 2 events unless said, beside the same checks; for 16 lines the columns of fast are of 4 values");
    let (few, many) = (few(), chain(255, 16));
    line_events(report, "event call with pulses", How::Event, 2, &few);
    line_events(report, "replay of 4096 events on a tool, no pulses", How::Replay, 2, &few);
    line_events(report, "replay of 4096 events on a tool, with pulses", How::ReplayWithPulses, 2, &few);
    line_events(report, "event call, 256 states, 16 events", How::Event, 16, &many);
    line_events(report, "replay of 4096 events, 256 states, 16 events", How::Replay, 16, &many);
    line_loads(report, "load of 3 states", 2, 2);
    line_loads(report, "load of 3 and 250 states in turn, 2 events", 2, 249);
    line_loads(report, "load of 3 and 250 states in turn, 16 events", 16, 249);
}

/// A rule of two states: V A A O0.1 G0 X0 G1 V A A O1.2 G1 X0 G0 X1.
fn few() -> Vec<Node> {
    use Node::{After, Both, Greatest, Output, Variable};
    let first = [Greatest, Both, Both, Output(0, 1), After(0), Variable(0), After(1)];
    let second = [Greatest, Both, Both, Output(1, 2), After(1), Variable(0), After(0), Variable(1)];
    [&first[..], &second].concat()
}

/// Events played on a tool with a rule.
fn line_events(report: &mut Report, case: &str, how: How, events: usize, rule: &[Node]) {
    let word = &Generator::new(1).word(&four(2), EVENTS);
    let calls = match how {
        How::Event => EVENTS * EVENT_ROUNDS,
        How::Replay | How::ReplayWithPulses => REPLAY_ROUNDS,
    };
    line(report, case, events, PROGRAM, calls, |set_up| {
        let rule = bytes_of(set_up, rule);
        let length = (rule.len() as u16).to_le_bytes();
        let input = [&[how as u8], &set_up_bytes(set_up)[..], &length, &rule, word].concat();
        let mut tool = empty(set_up);
        tool.load(0, &rule).expect("accepted");
        (input, move || play(how, tool.clone(), word))
    });
}

/// Rules of three states and of one more than so many loaded in turn, in front of another channel.
fn line_loads(report: &mut Report, case: &str, events: usize, count: usize) {
    line(report, case, events, LOAD_PROGRAM, 2 * LOAD_ROUNDS, |set_up| {
        let [first, second] = [2, count].map(|count| bytes_of(set_up, &chain(count, events)));
        let input = [&set_up_bytes(set_up)[..], &[first.len() as u8], &first, &second].concat();
        let mut tool = empty(set_up);
        tool.load(1, &first).expect("accepted");
        (input, move || load_calls(tool.clone(), &first, &second))
    });
}

/// Times a program and Rust in turn on as many calls, with both kinds of values. `call` says what the program reads, and makes the same calls in Rust:
/// both yield the same sum.
fn line<R: Fn() -> u64>(
    report: &mut Report,
    case: &str,
    events: usize,
    program: &str,
    calls: usize,
    call: impl Fn(&SetUp) -> (Vec<u8>, R),
) {
    let cases = ["4 values", "16 lines"].map(|values| format!("{case}, {values}"));
    if !cases.iter().any(|case| report.wants(case)) {
        return;
    }
    if !Path::new(program).exists() {
        println!("-- {case}: not timed, there is no {program}");
        return;
    }
    let forms = [four(events), lines(events)].map(|set_up| call(&set_up));
    let mut best = [[f64::INFINITY; 2]; 2];
    for _ in 0..5 {
        for ((input, rust), best) in forms.iter().zip(&mut best) {
            let start = programs_time();
            let sum = program_sum(program, input);
            best[0] = best[0].min(programs_time() - start);
            let start = processor_time();
            assert_eq!(sum, rust());
            best[1] = best[1].min(processor_time() - start);
        }
    }
    let [[four, rust], [lines, rust_of_lines]] = best.map(|times| times.map(|time| time / calls as f64));
    report.line(&cases[0], four, rust, None);
    report.line(&cases[1], lines, rust_of_lines, Some(four));
}

/// What a program prints: the sum of what its event calls replied, or its last replay replied and wrote; or how many loads were accepted.
fn program_sum(program: &str, input: &[u8]) -> u64 {
    let mut program = Command::new(program);
    let mut child = program.stdin(Stdio::piped()).stdout(Stdio::piped()).spawn().expect("the program starts");
    child.stdin.take().expect("a pipe").write_all(input).expect("the program reads");
    let output = child.wait_with_output().expect("the program ends");
    String::from_utf8_lossy(&output.stdout).trim().parse().expect("a sum")
}

/// The kind of a set-up, the set-up and the wheel, as the programs read them.
fn set_up_bytes(set_up: &SetUp) -> [u8; 6] {
    let (kind, values, top) = match set_up.raw().values {
        RawValues::Numbers(RawNumbers { values, top, .. }) => (0, values, top),
        RawValues::Register { lines } => (1, lines, 0),
    };
    [kind, set_up.events(), values, top, WHEEL.pulses, WHEEL.millimetres].map(|number| number as u8)
}

fn empty(set_up: &SetUp) -> Tool {
    Tool::new(set_up.raw().clone(), WHEEL).expect("accepted")
}

/// Two rules in turn; how many were accepted.
fn load_calls(mut tool: Tool, first: &[u8], second: &[u8]) -> u64 {
    let mut load = |rule: &[u8]| u64::from(black_box(&mut tool).load(0, black_box(rule)).is_ok());
    (0..LOAD_ROUNDS).map(|_| load(first) + load(second)).sum()
}

fn play(how: How, tool: Tool, word: &[u8]) -> u64 {
    let pulses = match how {
        How::Event => return event_calls(tool, word),
        How::Replay => vec![],
        How::ReplayWithPulses => vec![PULSES; EVENTS],
    };
    match tool.set_up.kind() {
        Kind::Numbers => replay_calls(tool, word, &pulses, |value| value as u8),
        Kind::Register => replay_calls(tool, word, &pulses, |value| value),
    }
}

fn sum_of(reading: Reading) -> u64 {
    u64::from(reading.value) + reading.distance.rest
}

/// Each event by a call of its own.
fn event_calls(mut tool: Tool, word: &[u8]) -> u64 {
    let mut call = |event: u8| sum_of(black_box(&mut tool).event(0, event.into(), PULSES).expect("accepted"));
    (0..EVENT_ROUNDS).map(|_| black_box(word).iter().map(|&event| call(event)).sum::<u64>()).sum()
}

/// All events by one replay, whose values are stored in so many bytes as the program's.
fn replay_calls<V>(mut tool: Tool, word: &[u8], pulses: &[u32], stored: impl Fn(Value) -> V) -> u64
where
    V: Copy + Default + Into<u64>,
{
    let mut to = [V::default(); EVENTS];
    let mut last = None;
    for _ in 0..REPLAY_ROUNDS {
        let (word, pulses, to) = (black_box(word), black_box(pulses), black_box(&mut to));
        last = plain::replay_on_tool(black_box(&mut tool), 0, word, pulses, to, &stored).expect("accepted");
    }
    to.iter().map(|&value| value.into()).sum::<u64>() + last.map_or(0, sum_of)
}
