//! Seeded scripts of commands, good and damaged. Equal seeds give equal scripts.

use gurvazze_reference::channel_file;
use gurvazze_reference::formula::Rule;
use gurvazze_reference::generate::{
    has_most_binders, has_variable_under_inner_binder, inner_binders, under, Generator, RawTable,
};
use gurvazze_reference::table::{Table, MAX_DEVICE_STATES, MAX_STATES};
use gurvazze_reference::tool::{Tool, Wheel, CHANNELS, MAX_PER_TURN, MAX_ROWS, MAX_TOTAL};
use gurvazze_reference::values::{masks_of, Kind, RawSetUp, RawValues, SetUp};

use crate::session::{Answer, Session, LINE_BYTES};
use crate::tally::Tally;

/// A script and what the program prints for it.
pub struct Script {
    /// The lines of the script.
    pub commands: Vec<u8>,
    /// What is expected on standard output.
    pub answers: Vec<u8>,
    /// How often each answer arose.
    pub tally: Tally,
    /// Where the answer to each line ends.
    ends: Vec<usize>,
}

impl Script {
    /// A script of about so many lines. The first come before a set-up, and the next before a device. In the scripts of odd seeds no wheel
    /// is kept before the first set-up, which is one of a register.
    pub fn new(seed: u64, lines: usize) -> Script {
        let mut writer = Writer(Generator::new(seed));
        let mut script = Script { commands: Vec::new(), answers: Vec::new(), tally: Tally::default(), ends: Vec::new() };
        let mut session = Session::default();
        if seed.is_multiple_of(2) {
            script.add(&mut session, &["wheel 0 1", SET_UP, "show 0", "wheel 3 2"].map(Vec::from));
        }
        for _ in 0..lines / 28 {
            script.add(&mut session, &[writer.before_set_up()]);
        }
        // A device that was kept before any set-up is one of numbers, and a register's set-up drops it.
        let first: &[&str] = if seed.is_multiple_of(2) { &[SET_UP, "write"] } else { &[] };
        let then = ["register 1 1", "write", "device 1 0 1.0 0", "write", SET_UP];
        let commands = ["device 1 0 3 0", "write"].iter().chain(first).chain(&then);
        script.add(&mut session, &commands.map(|&command| command.into()).collect::<Vec<Vec<u8>>>());
        for _ in 0..lines / 160 {
            script.add(&mut session, &[writer.before_device()]);
        }
        script.add(&mut session, &limits());
        script.add(&mut session, &limits_of_states());
        script.add(&mut session, &limits_of_rows(SET_UP, &|value| value.to_string()));
        script.add(&mut session, &limits_of_distances());
        script.add(&mut session, &limits_of_registers());
        script.add(&mut session, &limits_of_rows("register 1 4", &|value| format!("{}.{}", 15 - value, 13 + value)));
        for part in 1..=PARTS {
            let set_up = session.set_up().expect("a set-up was accepted").clone();
            script.add(&mut session, &writer.channel_to_limit(&set_up));
            while script.ends.len() < part * lines / PARTS {
                for _ in 0..100 {
                    let set_up = session.set_up().expect("a set-up was accepted").clone();
                    let commands = writer.commands(&set_up, session.rows());
                    script.add(&mut session, &commands);
                }
            }
        }
        // The last line needs no byte 10.
        if seed.is_multiple_of(2) {
            script.commands.pop();
        }
        script
    }

    /// The line, counted from 1, whose answer has a byte of the answers.
    pub fn answered_at(&self, byte: usize) -> Option<(usize, &[u8])> {
        let index = self.ends.iter().position(|&end| byte < end)?;
        let line = self.commands.split(|&byte| byte == b'\n').nth(index)?;
        Some((index + 1, line))
    }

    /// Adds commands and their answers. A damaged command may be two lines.
    fn add(&mut self, session: &mut Session, commands: &[Vec<u8>]) {
        for command in commands {
            for line in command.split(|&byte| byte == b'\n') {
                self.commands.extend_from_slice(line);
                self.commands.push(b'\n');
                self.add_answer(session, line);
                self.ends.push(self.answers.len());
            }
        }
    }

    fn add_answer(&mut self, session: &mut Session, line: &[u8]) {
        let (rows, kind, had_device) = (session.rows(), session.kind(), session.device().is_some());
        let Some(answer) = session.answer(line) else {
            return self.tally.count("line", "skipped");
        };
        self.answers.extend_from_slice(answer.text.as_bytes());
        self.tally.answer(&answer);
        if kind == Kind::Register && session.kind() == kind {
            self.tally.answer_with_register(&answer);
        }
        if let ("setup" | "register", "ok\n", Some(tool)) = (answer.command, answer.text.as_str(), session.tool()) {
            self.count_set_up(tool);
            if had_device {
                let fate = if session.device().is_some() { "device kept by" } else { "device dropped by" };
                self.tally.count(fate, answer.command);
            }
        }
        self.count_devices(kind, session, line, &answer);
        self.count_tokens(kind, line, &answer);
        self.count_distance(session, line, &answer);
        self.count_rows(rows, session, line, &answer);
        if let (false, Some(set_up)) = (answer.is_refused(), session.set_up()) {
            // Document 02, F-2 and F-9.
            let rules = rules_in(set_up, line, &answer.text);
            if rules.iter().any(has_variable_under_inner_binder) {
                self.tally.count("inner binder in", answer.command);
            }
            if rules.iter().any(has_most_binders) {
                self.tally.count("twelve binders in", answer.command);
            }
            // Document 02, F-12.
            let of_device = session.device().filter(|_| answer.command == "write").map(|device| device.states);
            let of_rules = rules.iter().filter_map(|rule| Table::of_rule(set_up, rule).ok()).map(|table| table.states());
            let most = of_rules.chain(of_device).max().unwrap_or(0);
            if most > MAX_DEVICE_STATES {
                self.tally.count("over 64 states in", answer.command);
            }
            if most == MAX_STATES {
                self.tally.count("256 states in", answer.command);
            }
        }
    }

    /// Document 02, F-12: what became of the rows that there were.
    fn count_rows(&mut self, old: [usize; CHANNELS], session: &Session, line: &[u8], answer: &Answer) {
        let new = session.rows();
        let in_all = |rows: [usize; CHANNELS]| rows.iter().sum::<usize>();
        let Some(channel) = (0..CHANNELS).find(|&channel| Some(channel) == named(line)) else { return };
        let (was, is) = (old[channel], new[channel]);
        let between = was > 0 && new[channel + 1..].iter().any(|&rows| rows > 0);
        let is_load = answer.command == "load" && !answer.is_refused();
        for (arises, kind) in [
            (is_load && between && is > was, "grows"),
            (is_load && between && is < was, "shrinks"),
            (answer.command == "clear" && between && is == 0, "closes"),
            (is_load && in_all(new) == MAX_ROWS, "full"),
            (is_load && in_all(old) + is > MAX_ROWS, "reuses"),
        ] {
            if arises {
                self.tally.count("store", kind);
            }
        }
        if answer.text == "refused=25\n" {
            self.tally.count("no rows for", if was > 0 { "loaded" } else { "empty" });
        }
    }

    /// Document 02, F-7: devices of registers that are kept though no table has such an entry.
    fn count_devices(&mut self, kind: Kind, session: &Session, line: &[u8], answer: &Answer) {
        let (Kind::Register, "device", false, Some(device)) = (kind, answer.command, answer.is_refused(), session.device())
        else {
            return;
        };
        let line = String::from_utf8_lossy(line);
        let words: Vec<&str> = line.split(' ').filter(|word| !word.is_empty()).skip(3).collect();
        let too_large = device.bytes.is_empty() && !words.is_empty();
        for (arises, kind) in [
            (too_large && words.iter().any(|word| is_too_large_value(word)), "mask-too-large"),
            (too_large && words.iter().all(|word| !is_too_large_value(word)), "next-too-large"),
            (!too_large && words.len() % 2 == 1, "ends-behind-value"),
        ] {
            if arises {
                self.tally.count("register's device", kind);
            }
        }
    }

    /// Document 02, F-7: tokens that would be in the form of the other kind.
    fn count_tokens(&mut self, kind: Kind, line: &[u8], answer: &Answer) {
        if answer.text != "error=tokens\n" {
            return;
        }
        let line = String::from_utf8_lossy(line);
        let dots = line.split(' ').filter(|word| word.starts_with('O')).map(|word| word.matches('.').count());
        match (kind, dots.max()) {
            (Kind::Numbers, Some(2)) => self.tally.count("O of the other kind", "register's"),
            (Kind::Register, Some(1)) => self.tally.count("O of the other kind", "number's"),
            _ => {}
        }
    }

    fn count_set_up(&mut self, tool: &Tool) {
        let (values, lines) = match &tool.set_up.values {
            RawValues::Numbers(numbers) => (numbers.values, 0),
            RawValues::Register { lines } => (0, *lines),
        };
        for (arises, kind) in [
            (lines == 0 && tool.set_up.events == 16, "16-events"),
            (lines > 0 && tool.set_up.events == 16, "16-events-of-register"),
            (values == 16, "16-values"),
            (lines == 1, "1-line"),
            (lines == 16, "16-lines"),
            (tool.wheel.pulses == 1, "1-pulse"),
            (tool.wheel.pulses == MAX_PER_TURN, "65535-pulses"),
            (tool.wheel.millimetres == 1, "1-millimetre"),
            (tool.wheel.millimetres == MAX_PER_TURN, "65535-millimetres"),
        ] {
            if arises {
                self.tally.count("set-up of", kind);
            }
        }
    }

    /// Document 02, F-6.
    fn count_distance(&mut self, session: &Session, line: &[u8], answer: &Answer) {
        let text = answer.text.trim_end();
        match answer.command {
            "setup" if text.starts_with("refused=") && session.wheel().check().is_err() => {
                self.tally.count("bad wheel at", text)
            }
            "register" if text.starts_with("refused=") && session.wheel().check().is_err() => {
                self.tally.count("bad wheel at register", text)
            }
            "event" if text.starts_with("refused=") && has_no_room(session, line) => self.tally.count("no room at", text),
            "event" if text.ends_with(" rest=0") => self.tally.count("distance", "whole"),
            "event" if text.contains(" rest=") => self.tally.count("distance", "remainder"),
            "show" => match text.split_once(" total=") {
                Some((_, "0")) => self.tally.count("total", "none"),
                Some((_, total)) if total == MAX_TOTAL.to_string() => self.tally.count("total", "most"),
                Some(_) => self.tally.count("total", "some"),
                None => {}
            },
            _ => {}
        }
    }
}

/// Whether a value word of a device has a mask of more than 16 bits.
fn is_too_large_value(word: &str) -> bool {
    word.split_once('.').is_some_and(|(low, high)| [low, high].iter().any(|mask| mask.parse::<u16>().is_err()))
}

/// The channel that a command on one names.
fn named(line: &[u8]) -> Option<usize> {
    let line = String::from_utf8_lossy(line);
    line.split(' ').filter(|word| !word.is_empty()).nth(1)?.parse().ok()
}

/// Whether a refused event has more pulses than its channel, which is loaded, has room for.
fn has_no_room(session: &Session, line: &[u8]) -> bool {
    let line = String::from_utf8_lossy(line);
    let words: Vec<&str> = line.split(' ').filter(|word| !word.is_empty()).collect();
    let (Some(tool), [_, channel, _, pulses]) = (session.tool(), &words[..]) else { return false };
    let (Ok(channel), Ok(pulses)) = (channel.parse::<usize>(), pulses.parse::<u64>()) else { return false };
    let channel = tool.channels.get(channel);
    channel.is_some_and(|channel| !channel.is_empty() && pulses > MAX_TOTAL - channel.total)
}

/// The rules in an accepted command or in its answer. Tokens stand behind the command, behind a channel, or behind another rule; in an
/// answer behind `rule=`.
fn rules_in(set_up: &SetUp, line: &[u8], answer: &str) -> Vec<Rule> {
    let line = String::from_utf8_lossy(line);
    let words: Vec<&str> = line.split(' ').filter(|word| !word.is_empty()).collect();
    let parts = words.split(|&word| word == "/");
    let given = parts.flat_map(|part| (0..part.len().min(3)).map(|from| part[from..].join(" ")));
    let written = answer.strip_prefix("rule=").map(|tokens| tokens.trim_end().to_string());
    given.chain(written).filter_map(|tokens| rule_of(set_up, &tokens)).collect()
}

/// The script has so many parts, and each begins with a channel whose total comes to its limit.
const PARTS: usize = 5;

/// The four-value set with one event.
const SET_UP: &str = "setup 1 4 3 0 0 0 0 0 1 0 1 0 0 2 2 0 1 2 3";

/// Words that are no values of a register's device.
const NO_MASKS: [&str; 16] =
    ["1", "0", "1.", ".1", ".", "1..1", "1.1.1", "1.1.", ".1.1", "x.1", "1.x", "-1.1", "1.+1", "0x1.1", "1,1", "1.1\r"];

/// Words that are no numbers.
const NO_NUMBERS: [&str; 10] = ["x", "-1", "+1", "1x", "0x1", "1.0", "1,", "al", "\t1", "1\r"];

/// Numbers too large for everything but wheels and pulses; some of them wrap to small ones.
const LARGE: [&str; 10] =
    ["17", "64", "255", "256", "257", "65535", "65536", "4294967296", "18446744073709551616", "99999999999999999999999"];

/// Numbers that no event may have as its pulses; some of them wrap to ones that it may have.
const TOO_MANY_PULSES: [&str; 11] = [
    "4294967296",
    "00000000000004294967296",
    "4294967297",
    "42949672950",
    "8589934591",
    "1099511627776",
    "1099511627777",
    "10000000000000000000",
    "18446744073709551615",
    "18446744073709551617",
    "99999999999999999999999",
];

/// What may stand between two rules and leaves no two.
const NO_DIVIDERS: [&str; 10] = ["", " ", "/", " /", "/ ", "  / ", " /  ", " // ", " / / ", "\t/ "];

const CALLS: [&str; 13] = [
    "table T",
    "dot T",
    "load 0 T",
    "event 0 0",
    "event 0 0 1",
    "events 0 0",
    "restart 0",
    "restart all",
    "clear 0",
    "show 0",
    "trial T",
    "covers T / T",
    "write",
];

/// Set-ups, wheels and devices that are refused or not read.
const NOT_KEPT: [&str; 16] = [
    "setup 0 1 0 0",
    "setup 1 1 1 0",
    "setup 1 1 0 1",
    "setup 1 1",
    "register 0 1",
    "register 1 0",
    "register 1 17",
    "register 1",
    "register 1 x",
    "register 1 1 1",
    "device 1 0 1.1 0",
    "wheel 7",
    "wheel 7 x",
    "wheel 7 7 7",
    "device 1",
    "device 1 x",
];

struct Writer(Generator);

impl Writer {
    /// A command that needs a set-up, a line that is no command, or a set-up, wheel or device that is refused or not read.
    fn before_set_up(&mut self) -> Vec<u8> {
        match self.0.below(16) {
            0 => self.no_command(),
            1 => self.0.one_of(&NOT_KEPT).into(),
            2..=4 => {
                let set_up = self.set_up();
                if self.0.once_in(12) {
                    self.covers(&set_up)
                } else {
                    self.call(&set_up)
                }
            }
            _ => self.0.one_of(&CALLS).into(),
        }
    }

    /// A command that needs a device, or a device that is not read.
    fn before_device(&mut self) -> Vec<u8> {
        match self.0.below(8) {
            0 => "write now".into(),
            1..=3 => "write".into(),
            4 => self.0.one_of(&["device", "device 1", "device x 0", "device 1 0 3 y", "device 1 0 1.1 0"]).into(),
            _ => {
                let set_up = self.set_up();
                self.tokens("trial", &set_up)
            }
        }
    }

    /// Some commands of any kind that belong together.
    fn commands(&mut self, set_up: &SetUp, rows: [usize; CHANNELS]) -> Vec<Vec<u8>> {
        let mut commands = match self.0.below(100) {
            0 | 1 => self.set_up_and_loads(),
            2..=4 => vec![self.damaged_set_up()],
            5..=14 => vec![self.miscounted_or_no_number(set_up)],
            15 | 16 => vec![self.no_command()],
            17..=23 => self.device_and_trials(set_up),
            24..=29 => self.device_and_rule(set_up),
            30..=35 => vec![self.covers(set_up)],
            36 => vec![self.any_wheel()],
            37 if self.0.once_in(3) => self.loads_about_rows(set_up, rows),
            _ => vec![self.call(set_up)],
        };
        if self.0.once_in(25) {
            let at = self.0.below(commands.len());
            // Nothing says what words behind help come to.
            if !commands[at].is_empty() && !commands[at].trim_ascii_start().starts_with(b"help") {
                self.0.damage(&mut commands[at]);
            }
        }
        commands
    }

    // Set-ups.

    /// A set-up of either kind.
    fn set_up(&mut self) -> SetUp {
        match self.0.below(12) {
            // The sets of four things, which are 16 values.
            0..=2 => {
                let meet = (0..16u8).flat_map(|b| (0..16u8).map(move |c| b & c)).collect();
                let raw = RawSetUp::numbers(self.0.between(1, 3), 16, 15, meet);
                SetUp::new(raw).expect("intersections obey the laws")
            }
            3 => {
                let raw = RawSetUp { events: 16, ..self.0.set_up().raw().clone() };
                SetUp::new(raw).expect("the laws do not speak of events")
            }
            4 => {
                let lines = self.0.one_of(&[1, 2, 16]);
                SetUp::new(RawSetUp::register(16, lines)).expect("the numbers are in their ranges")
            }
            5 => {
                let events = self.0.between(1, 3);
                SetUp::new(RawSetUp::register(events, 1)).expect("the numbers are in their ranges")
            }
            6 | 7 => self.0.register(),
            _ => self.0.set_up(),
        }
    }

    /// A set-up, often with a wheel of its own, then rules in the channels that are used most.
    fn set_up_and_loads(&mut self) -> Vec<Vec<u8>> {
        let set_up = self.set_up();
        let mut commands = Vec::new();
        if self.0.once_in(4) {
            let wheel = self.0.damaged_wheel();
            commands.extend([self.wheel(wheel), self.set_up_line(set_up.raw())]);
        }
        if !commands.is_empty() || self.0.once_in(2) {
            let wheel = self.0.wheel();
            commands.push(self.wheel(wheel));
        }
        commands.push(self.set_up_line(set_up.raw()));
        for channel in 0..2 {
            commands.push(format!("load {channel} {}", self.0.good_tokens(&set_up)).into());
        }
        commands
    }

    fn wheel(&mut self, wheel: Wheel) -> Vec<u8> {
        let words = ["wheel".to_string(), self.number(wheel.pulses), self.number(wheel.millimetres)];
        self.spaced(&words)
    }

    /// A wheel for the next set-up, or one that the next set-up is refused for, at times a number of any size in it.
    fn any_wheel(&mut self) -> Vec<u8> {
        let wheel = if self.0.once_in(4) { self.0.damaged_wheel() } else { self.0.wheel() };
        let large = self.0.one_of(&LARGE);
        match self.0.below(16) {
            0 => format!("wheel {large} {}", wheel.millimetres).into(),
            1 => format!("wheel {} {large}", wheel.pulses).into(),
            _ => self.wheel(wheel),
        }
    }

    fn damaged_set_up(&mut self) -> Vec<u8> {
        let kind = if self.0.once_in(3) { Kind::Register } else { Kind::Numbers };
        let raw = self.0.damaged_set_up_of(kind);
        self.set_up_line(&raw)
    }

    fn set_up_line(&mut self, raw: &RawSetUp) -> Vec<u8> {
        let mut words;
        match &raw.values {
            RawValues::Numbers(numbers) => {
                words = vec!["setup".to_string()];
                words.extend([raw.events, numbers.values, numbers.top].map(|number| self.number(number)));
                words.extend(numbers.meet.iter().map(|&entry| entry.to_string()));
            }
            RawValues::Register { lines } => {
                words = vec!["register".to_string(), self.number(raw.events), self.number(*lines)];
            }
        }
        if self.0.once_in(12) {
            let at = self.0.between(1, words.len() - 1);
            words[at] = self.0.one_of(&LARGE).to_string();
        }
        self.spaced(&words)
    }

    // Calls and questions.

    fn call(&mut self, set_up: &SetUp) -> Vec<u8> {
        let channel = self.channel();
        match self.0.below(86) {
            0..=8 => self.printed("table", &channel, set_up),
            9..=17 => self.printed("dot", &channel, set_up),
            18..=31 => self.load(&channel, set_up),
            32..=48 => self.one_event(channel, set_up),
            49..=60 => self.events(channel, set_up),
            61..=65 => self.spaced(&["restart".to_string(), channel]),
            66 => self.spaced(&["restart".to_string(), "all".to_string()]),
            67..=71 => self.spaced(&["clear".to_string(), channel]),
            72..=79 => self.spaced(&["show".to_string(), channel]),
            80..=82 => self.tokens("trial", set_up),
            _ => "write".into(),
        }
    }

    /// A table to print. One of many entries is long, so most such are loaded and not printed, and the longest never.
    fn printed(&mut self, command: &str, channel: &str, set_up: &SetUp) -> Vec<u8> {
        let tokens = self.any_tokens(set_up);
        let entries = table_of(set_up, &String::from_utf8_lossy(&tokens)).map_or(0, |table| table.entries().len());
        if entries > 1024 || entries > 64 && !self.0.once_in(16) {
            return self.with_tokens(&format!("load {channel}"), &tokens);
        }
        self.with_tokens(command, &tokens)
    }

    /// Loads into all channels of about as many rows as there is room for, at times one more, with clears and short rules among them, and
    /// what those channels do then on one event again and again. So many rows are there before.
    fn loads_about_rows(&mut self, set_up: &SetUp, mut rows: [usize; CHANNELS]) -> Vec<Vec<u8>> {
        let event = self.0.below(set_up.events());
        let mut commands = Vec::new();
        for _ in 0..self.0.between(10, 25) {
            let channel = self.0.below(CHANNELS);
            match self.0.below(10) {
                0..=4 => {
                    let room = MAX_ROWS - (rows.iter().sum::<usize>() - rows[channel]);
                    let states = self.0.rows_about(room);
                    if states <= room {
                        rows[channel] = states;
                    }
                    commands.push(format!("load {channel} {}", self.0.tokens_of_states(set_up, event, states)).into());
                }
                5 => {
                    rows[channel] = 0;
                    commands.push(format!("clear {channel}").into());
                }
                6 => commands.push(format!("show {channel}").into()),
                _ => {
                    let times = if self.0.once_in(4) { self.0.between(40, MAX_STATES) } else { self.0.between(1, 12) };
                    commands.push(format!("events {channel}{}", format!(" {event}").repeat(times)).into());
                }
            }
        }
        commands
    }

    /// Few channels are used much, so that their histories grow long.
    fn channel(&mut self) -> String {
        match self.0.below(12) {
            0 if self.0.once_in(2) => self.0.one_of(&LARGE).to_string(),
            0 => self.0.between(8, 17).to_string(),
            1..=3 => self.0.below(8).to_string(),
            _ => {
                let channel = self.0.below(2);
                self.number(channel)
            }
        }
    }

    fn event(&mut self, set_up: &SetUp) -> String {
        let event = self.0.below(set_up.events());
        self.number(event)
    }

    /// An event, with pulses or without.
    fn one_event(&mut self, channel: String, set_up: &SetUp) -> Vec<u8> {
        let event = if self.0.once_in(10) { self.large_event(set_up) } else { self.event(set_up) };
        let mut words = vec!["event".to_string(), channel, event];
        if self.0.once_in(2) {
            words.push(self.pulses());
        }
        self.spaced(&words)
    }

    /// Pulses, at times more than an event may have.
    fn pulses(&mut self) -> String {
        if self.0.once_in(8) {
            return self.0.one_of(&TOO_MANY_PULSES).to_string();
        }
        let pulses = self.0.pulses();
        self.number(pulses as usize)
    }

    fn large_event(&mut self, set_up: &SetUp) -> String {
        let event = set_up.events() + self.0.below(3);
        if self.0.once_in(2) {
            self.0.one_of(&LARGE).to_string()
        } else {
            event.to_string()
        }
    }

    fn events(&mut self, channel: String, set_up: &SetUp) -> Vec<u8> {
        let length = match self.0.below(40) {
            0 if self.0.once_in(3) => self.0.between(1000, 4100),
            0..=3 => 0,
            4..=8 => self.0.below(200),
            _ => self.0.below(12),
        };
        let mut words = vec!["events".to_string(), channel];
        words.extend((0..length).map(|_| self.0.below(set_up.events()).to_string()));
        if length > 0 && self.0.once_in(8) {
            let at = self.0.between(2, words.len() - 1);
            words[at] = self.large_event(set_up);
        }
        self.spaced(&words)
    }

    /// A channel whose total comes to its limit by one event repeated, then about the limit, and what zeroes the total.
    fn channel_to_limit(&mut self, set_up: &SetUp) -> Vec<Vec<u8>> {
        let (channel, event) = (self.0.below(CHANNELS), self.0.below(set_up.events()));
        let mut commands = vec![self.load_loop(channel, set_up, event)];
        let (list, mut room) = self.0.pulses_to_limit();
        for pulses in list {
            if self.0.once_in(16) {
                commands.push(self.keeps_total(channel, set_up, event));
            }
            commands.push(self.event_with_pulses(channel, event, pulses));
        }
        for _ in 0..self.0.between(60, 100) {
            if self.0.once_in(2) {
                commands.push(self.keeps_total(channel, set_up, event));
                continue;
            }
            let pulses = self.0.pulses_about(room);
            room = room.checked_sub(pulses).unwrap_or(room);
            commands.push(self.event_with_pulses(channel, event, pulses));
        }
        let show = || format!("show {channel}").into_bytes();
        commands.extend([show(), self.zeroes_total(channel, set_up, event), show()]);
        commands.extend([self.event_with_pulses(channel, event, u32::MAX), show()]);
        commands
    }

    fn load_loop(&mut self, channel: usize, set_up: &SetUp, event: usize) -> Vec<u8> {
        format!("load {channel} {}", self.0.tokens_of_one_loop(set_up, event)).into()
    }

    fn event_with_pulses(&mut self, channel: usize, event: usize, pulses: u32) -> Vec<u8> {
        let words = ["event".to_string(), channel.to_string(), self.number(event), self.number(pulses as usize)];
        self.spaced(&words)
    }

    fn zeroes_total(&mut self, channel: usize, set_up: &SetUp, event: usize) -> Vec<u8> {
        match self.0.below(4) {
            0 => self.load_loop(channel, set_up, event),
            1 => format!("clear {channel}").into(),
            2 => "restart all".into(),
            _ => format!("restart {channel}").into(),
        }
    }

    /// A command that leaves a channel's total as it is: refused, not read, without pulses, on another channel, or for the next set-up.
    fn keeps_total(&mut self, channel: usize, set_up: &SetUp, event: usize) -> Vec<u8> {
        let other = (channel + self.0.between(1, CHANNELS - 1)) % CHANNELS;
        match self.0.below(14) {
            0 => format!("event {channel} {event} {}", self.0.one_of(&TOO_MANY_PULSES)),
            1..=3 => format!("event {channel} {} {}", self.large_event(set_up), u32::MAX),
            4 => format!("event {channel} {event}"),
            5 => format!("events {channel} {event} {event}"),
            6 => format!("load {channel} V X0"),
            7 => format!("event {channel} {event} 1 {}", self.0.one_of(&["1", "x"])),
            8 => format!("event {other} {event} {}", self.0.pulses()),
            9 => format!("restart {other}"),
            10 => return self.any_wheel(),
            _ => format!("show {channel}"),
        }
        .into()
    }

    /// A load, about as often of a good rule as not.
    fn load(&mut self, channel: &str, set_up: &SetUp) -> Vec<u8> {
        let head = format!("load {channel}");
        if !self.0.once_in(3) {
            return self.tokens(&head, set_up);
        }
        format!("{head} {}", self.0.good_tokens(set_up)).into()
    }

    /// Two rules, often related, or tokens of any kind for one or both of them.
    fn covers(&mut self, set_up: &SetUp) -> Vec<u8> {
        let (first, second) = self.0.pair_of_tokens(set_up);
        let (first, second) = match self.0.below(36) {
            0..=10 => (self.any_tokens(set_up), second.into()),
            11..=21 => (first.into(), self.any_tokens(set_up)),
            22..=26 => (self.any_tokens(set_up), self.any_tokens(set_up)),
            27 => (self.long_tokens(set_up), self.long_tokens(set_up)),
            _ => (first.into(), second.into()),
        };
        let between = if self.0.once_in(12) { self.0.one_of(&NO_DIVIDERS) } else { " / " };
        let spaces = " ".repeat(if self.0.once_in(12) { self.0.between(1, 3) } else { 1 });
        ["covers".as_bytes(), spaces.as_bytes(), &first, between.as_bytes(), &second].concat()
    }

    fn any_tokens(&mut self, set_up: &SetUp) -> Vec<u8> {
        match self.0.below(60) {
            0 => self.long_tokens(set_up),
            1 => {
                let other = self.0.set_up_of(other(set_up.kind()));
                self.0.good_tokens(&other).into()
            }
            _ => self.0.tokens(set_up),
        }
    }

    /// A command with tokens of any kind.
    fn tokens(&mut self, head: &str, set_up: &SetUp) -> Vec<u8> {
        let tokens = self.any_tokens(set_up);
        self.with_tokens(head, &tokens)
    }

    fn with_tokens(&mut self, head: &str, tokens: &[u8]) -> Vec<u8> {
        let spaces = if self.0.once_in(12) { self.0.between(1, 3) } else { 1 };
        let mut line = head.as_bytes().to_vec();
        line.resize(head.len() + spaces, b' ');
        line.extend_from_slice(tokens);
        line
    }

    /// As many tokens as a channel file has room for, or a byte more or less.
    fn long_tokens(&mut self, set_up: &SetUp) -> Vec<u8> {
        let room = channel_file::MAX_BYTES - channel_file::head(set_up).len() - 1;
        let length = room + self.0.below(3) - 1;
        let mut tokens = if length.is_multiple_of(2) { "G0" } else { "T" }.to_string();
        while tokens.len() < length {
            tokens.push_str(self.0.one_of(&[" T", " A", " V"]));
        }
        tokens.into()
    }

    // Devices.

    /// A device near a rule's table or any other, then trials.
    fn device_and_trials(&mut self, set_up: &SetUp) -> Vec<Vec<u8>> {
        let tokens = self.0.good_tokens(set_up);
        let device = match (self.0.below(16), table_of(set_up, &tokens)) {
            (0 | 1, _) => self.0.damaged_device(set_up),
            (2, _) => self.0.table(set_up),
            (3 | 4, _) | (_, None) => self.0.device(set_up),
            (_, Some(table)) => self.0.device_near(set_up, &table),
        };
        let mut commands = vec![self.device(set_up, &device), format!("trial {tokens}").into()];
        for _ in 0..self.0.below(3) {
            commands.push(self.tokens("trial", set_up));
        }
        // A device that is not read leaves the last one.
        if self.0.once_in(4) {
            let value = self.0.value(set_up);
            let value = words_of(set_up.kind(), &set_up.kind().value_to_bytes(value))[0].clone();
            let bad = match set_up.kind() {
                Kind::Register if self.0.once_in(2) => self.0.one_of(&NO_MASKS),
                _ => "x",
            };
            commands.push(format!("device 1 0 {value} 0 {bad}").into());
            commands.push(format!("trial {tokens}").into());
        }
        commands
    }

    fn device_and_rule(&mut self, set_up: &SetUp) -> Vec<Vec<u8>> {
        let tokens = self.0.good_tokens(set_up);
        let device = match (self.0.below(8), table_of(set_up, &tokens)) {
            (0, _) => self.0.damaged_table(set_up),
            (1, _) => self.0.table(set_up),
            (2, Some(table)) => RawTable { states: table.states(), start: 0, bytes: table.to_bytes() },
            _ => self.0.chain(set_up),
        };
        vec![self.device(set_up, &device), self.spaced(&["write".to_string()])]
    }

    /// A device as a command, at times with the words of the other kind.
    fn device(&mut self, set_up: &SetUp, device: &RawTable) -> Vec<u8> {
        let mut words = vec!["device".to_string(), self.number(device.states), self.number(device.start)];
        let kind = if self.0.once_in(40) { other(set_up.kind()) } else { set_up.kind() };
        words.extend(words_of(kind, &device.bytes));
        if self.0.once_in(15) {
            // A number that wraps to the one that was there, in a byte or in two.
            let more = self.0.one_of(&[256, 65_536, 1 << 32, 1 << 64]);
            self.change_number(&mut words, |number| number.parse::<u128>().expect("the words are numbers") + more);
        }
        // A list that ends behind a value.
        if self.0.once_in(20) && words.len() > 4 && words.len() % 2 == 1 {
            words.pop();
        }
        if self.0.once_in(15) {
            let zeros = "0".repeat(self.0.between(1, 30));
            self.change_number(&mut words, |number| zeros.clone() + number);
        }
        self.spaced(&words)
    }

    /// Changes one number of a device's words, which may be a mask.
    fn change_number<T: ToString>(&mut self, words: &mut [String], change: impl Fn(&str) -> T) {
        let at = self.0.between(1, words.len() - 1);
        words[at] = match words[at].split_once('.') {
            Some((low, high)) if self.0.once_in(2) => format!("{}.{high}", change(low).to_string()),
            Some((low, high)) => format!("{low}.{}", change(high).to_string()),
            None => change(&words[at]).to_string(),
        };
    }

    // Lines that are not of the form.

    /// Too few or too many words, or a word that is no number.
    fn miscounted_or_no_number(&mut self, set_up: &SetUp) -> Vec<u8> {
        const GOOD: [&str; 14] = [
            "setup 2 1 0 0",
            "register 2 2",
            "wheel 1 1",
            "load 0 T",
            "load 1",
            "event 0 0",
            "event 0 0 0",
            "events 0 0",
            "events 1",
            "restart 0",
            "clear 0",
            "show 0",
            "device 1 0 0 0",
            "write",
        ];
        let mut words: Vec<String> = self.0.one_of(&GOOD).split(' ').map(str::to_string).collect();
        let last = words.len() - 1;
        match self.0.below(8) {
            0 | 1 => words.truncate(1),
            2 => words.truncate(self.0.between(1, last.max(1))),
            3 => {
                let more = if self.0.once_in(2) { self.event(set_up) } else { self.0.one_of(&NO_NUMBERS).to_string() };
                words.push(more);
            }
            // Numbers are no values of a register's device, so its words are those of one.
            _ if words[0] == "device" && set_up.kind() == Kind::Register => {
                words[3] = "1.1".to_string();
                let at = self.0.between(1, last);
                words[at] = if at == 3 { self.0.one_of(&NO_MASKS) } else { self.0.one_of(&NO_NUMBERS) }.to_string();
            }
            _ if last > 0 => {
                let at = self.0.between(1, last);
                words[at] = self.0.one_of(&NO_NUMBERS).to_string();
            }
            _ => words.push("now".to_string()),
        }
        self.spaced(&words)
    }

    /// Comments, empty lines, words that name nothing, lines at the limit and beyond it; and help.
    fn no_command(&mut self) -> Vec<u8> {
        match self.0.below(9) {
            0 => Vec::new(),
            1 => " ".repeat(self.0.between(1, 4)).into(),
            2 => self.0.one_of(&["# a comment", "#", "  #event 0 0", "# setup 2 1 0 0"]).into(),
            3..=5 => self
                .0
                .one_of(&["Event 0 0", "eventss 0 0", "even 0 0", "0", "show\t0", "show\r", "\u{e9}", "all", "set up 2", "-"])
                .into(),
            6 => {
                let length = LINE_BYTES + self.0.below(4);
                let mut line = self.0.one_of(&["show 0", "# a comment", "", "restart 0", "events 0"]).as_bytes().to_vec();
                line.resize(length, b' ');
                if self.0.once_in(4) {
                    *line.last_mut().expect("the line is long") = b'0';
                }
                line
            }
            7 => self.0.one_of(&["help", " help", "help  "]).into(),
            _ => {
                let length = self.0.below(20);
                self.0.bytes(length).into_iter().filter(|&byte| byte != b'\n').collect()
            }
        }
    }

    // Words.

    /// A number, at times with zeros before it.
    fn number(&mut self, number: usize) -> String {
        let zeros = if self.0.once_in(20) { self.0.between(1, 30) } else { 0 };
        format!("{}{number}", "0".repeat(zeros))
    }

    /// The words with a space between two, or at times more, also before and behind them.
    fn spaced(&mut self, words: &[String]) -> Vec<u8> {
        if !self.0.once_in(12) {
            return words.join(" ").into();
        }
        let mut line = " ".repeat(self.0.below(3));
        for word in words {
            line.push_str(word);
            line.push_str(&" ".repeat(self.0.between(1, 3)));
        }
        line.into()
    }
}

/// The other kind of values.
fn other(kind: Kind) -> Kind {
    match kind {
        Kind::Numbers => Kind::Register,
        Kind::Register => Kind::Numbers,
    }
}

/// The words of a device's entries in bytes: of a register a value LOW.HIGH and a next state in turn. Bytes that are no whole value there
/// have no word.
fn words_of(kind: Kind, bytes: &[u8]) -> Vec<String> {
    let of_register = |entry: &[u8]| {
        let (value, next) = entry.split_at_checked(4).unwrap_or_default();
        let value = (!value.is_empty()).then(|| masks_of(Kind::Register.value_from(value)));
        let words = value.into_iter().map(|(low, high)| format!("{low}.{high}"));
        words.chain(next.iter().map(u8::to_string)).collect::<Vec<String>>()
    };
    match kind {
        Kind::Numbers => bytes.iter().map(u8::to_string).collect(),
        Kind::Register => bytes.chunks(5).flat_map(of_register).collect(),
    }
}

/// The rule in tokens, if 4 to 9 and 23 do not refuse it.
fn rule_of(set_up: &SetUp, tokens: &str) -> Option<Rule> {
    let text = format!("{}{tokens}\n", channel_file::head(set_up));
    Some(channel_file::read_of(set_up.kind(), text.as_bytes()).ok()?.rule)
}

/// The table of a rule in tokens, if it has at most 256 states.
fn table_of(set_up: &SetUp, tokens: &str) -> Option<Table> {
    Table::of_rule(set_up, &rule_of(set_up, tokens)?).ok()
}

/// Commands at the limits of documents 01 and 02, for one event.
fn limits() -> Vec<Vec<u8>> {
    let mut commands = Vec::new();
    for states in [12, 13, 63, 64] {
        commands.push(format!("load 0 {}", steps(states)));
        commands.push(chain(states));
        commands.push("write".to_string());
    }
    for nodes in [12, 13, 255, 256] {
        commands.push(format!("table {}", under(nodes, "T")));
        commands.push(format!("dot {}T", "A T ".repeat(nodes / 2)));
        commands.extend(["table", "dot"].map(|command| format!("{command} {}", under(12, &steps(nodes / 12)))));
        commands.push(format!("load 0 {}", "T ".repeat(nodes + 1).trim_end()));
    }
    // Twelve and thirteen binders: in either part of an A, in both together, with G nodes, and in rules that 6 to 9 refuse.
    for binders in [12, 13] {
        let deep = under(binders, "T");
        for tokens in [
            format!("A T {deep}"),
            format!("A {deep} T"),
            format!("A {} {deep}", under(12, "T")),
            format!("A {} {}", under(7, "T"), under(binders - 7, "T")),
            under(6, &format!("A V G0 X0 {}", under(binders - 6, "G0 X0"))),
            format!("G0 {deep}"),
            format!("{}T", "V G0 ".repeat(binders)),
            under(binders, &format!("G0 X{}", binders - 1)),
            under(binders, &format!("G0 X{binders}")),
            under(binders, "X0"),
            format!("A V X0 {deep}"),
            under(binders, "A T"),
            under(binders, "G1 T"),
        ] {
            commands.extend(["table", "load 0", "dot", "trial"].map(|command| format!("{command} {tokens}")));
            commands.extend([format!("covers {tokens} / T"), format!("covers T / {tokens}")]);
        }
    }
    // A device loop of 64 states against a rule loop of 251: the failing word has 64 × 251 events.
    for (states, others) in [(64, 63), (63, 64), (64, 64), (64, 251), (64, 252), (65, 251)] {
        commands.push(device_of(states, |state| (if state + 1 == states { 3 } else { 1 }, (state + 1) % states)));
        commands.push(format!("trial V {}A O0.1 G0 X0", "G0 ".repeat(others - 1)));
    }
    // The same with the table of a rule's loop as the device.
    for (states, others) in [(64, 63), (61, 59), (63, 251), (65, 63)] {
        let first = format!("V {}G0 X0", "A O0.1 G0 ".repeat(states - 1));
        let second = format!("V {}A O0.1 G0 X0", "G0 ".repeat(others - 1));
        commands.push(format!("covers {first} / {second}"));
        commands.push(format!("covers {second} / {first}"));
    }
    for (first, second) in [(63, 63), (63, 64), (64, 63), (63, 255), (255, 255), (255, 256), (256, 255)] {
        commands.push(format!("covers {} / {}", steps(first), steps(second)));
    }
    for (first, second) in [(12, 12), (12, 13), (13, 12), (255, 256), (256, 255)] {
        commands.push(format!("covers {} / {}", under(first, "T"), under(second, "T")));
    }
    // Lines of as many bytes as there may be, and of one more.
    for length in [LINE_BYTES, LINE_BYTES + 1, LINE_BYTES + 1] {
        commands.extend(["show 0", "# a comment", "restart 0", "help", "clear 8"].map(|command| format!("{command:length$}")));
    }
    commands.extend(several("setup, setup 1, setup 1 1, help, restart 8, show 8, event 8 0, help, covers G1 T / T"));
    commands.extend([8, 9, 10, 16, 255, 256, 65_536].map(|channel| format!("clear {channel}")));
    // Rules on each of sixteen events.
    let sixteen = SET_UP.replacen("setup 1 ", "setup 16 ", 1);
    for event in 0..16 {
        commands.extend([
            sixteen.clone(),
            format!("load 0 V A O{event}.1 G{event} X0"),
            format!("events 0 0 {event} {event} 15"),
        ]);
    }
    commands.push(SET_UP.to_string());
    // Each inner binder has its outer one's demands twice or ten times: plain recursion takes up to 10^11 steps. The last two are 23.
    for (brackets, variables) in [(3, 2), (7, 2), (11, 2), (11, 10), (12, 2), (42, 2)] {
        let tokens = inner_binders(brackets, variables);
        commands.push(chain(brackets + 1));
        commands.extend(["table", "load 0", "dot", "trial"].map(|command| format!("{command} {tokens}")));
        commands.push(format!("covers {tokens} / {tokens}"));
        commands.push("events 0".to_string() + &" 0".repeat(60));
    }
    // Passes of such loops: as same, and as stricter by the device's first or last state alone.
    for low in [None, Some(0), Some(63)] {
        commands.push(device_of(64, |state| (if Some(state) == low { 1 } else { 3 }, (state + 1) % 64)));
        commands.push(format!("trial V {}X0", "G0 ".repeat(63)));
        commands.push("trial T".to_string());
    }
    commands.into_iter().map(String::into_bytes).collect()
}

/// Commands at document 02's limits of states, for one event: 256 of a rule and of any device but a trial's, 64 of that.
fn limits_of_states() -> Vec<Vec<u8>> {
    let mut commands = Vec::new();
    // 15 × 17 states, one more for what is demanded on the first event alone, two more for what is demanded on the second.
    let most = joined_loops(15, 17);
    let rules = [
        steps(64),
        steps(254),
        steps(255),
        most.clone(),
        format!("A O0.1 {most}"),
        format!("A {most} O0.2"),
        format!("V {}X0", "G0 ".repeat(250)),
        format!("A {most} G0 O0.1"),
        joined_loops(16, 17),
        steps(256),
    ];
    for tokens in &rules {
        commands.extend([format!("table {tokens}"), format!("load 0 {tokens}")]);
        commands.extend([format!("covers T / {tokens}"), format!("covers {tokens} / T"), format!("covers {tokens} / X0")]);
        for states in [1, 64, 65] {
            commands.extend([chain(states), format!("trial {tokens}")]);
        }
        commands.push(device_of(64, |state| (0, (state + 1) % 64)));
        commands.extend([format!("trial {tokens}"), "clear 0".to_string()]);
    }
    commands.extend([0, 2, 4, 5, 8].map(|rule| format!("dot {}", rules[rule])));
    // The rules of 256 states once more, against devices of any size that pass and that fail.
    for rule in [2, 4, 5] {
        for states in [1, 2, 3, 16, 31, 63, 64] {
            commands.push(device_of(states, |state| (state % 4, (state * 7 + 5) % states)));
            commands.push(format!("trial {}", rules[rule]));
            commands.push(format!("covers V {}X0 / {}", "A O0.1 G0 ".repeat(states), rules[rule]));
        }
    }
    // From its last state on a chain is one state long, whatever stands before it.
    for states in [64, 65, 255, 256, 257] {
        for start in [states - 1, states - 2, states - 12, states - 13, 0, states] {
            let device = chain(states).replacen(" 0", &format!(" {start}"), 1);
            commands.extend([device, "write".to_string(), "trial T".to_string()]);
        }
    }
    for start in 245..256 {
        commands.extend([chain(256).replacen(" 0", &format!(" {start}"), 1), "write".to_string()]);
    }
    // A number that no byte holds is no next state, and no value.
    for number in ["254", "255", "256", "257", "511", "65535", "65791", "4294967551", "18446744073709551871"] {
        let before = chain(256).replacen(" 0", " 255", 1);
        let before = before.rsplit_once(" 3 ").expect("the last entry has value 3").0;
        commands.extend([format!("{before} 3 {number}"), "write".to_string()]);
        commands.extend([format!("{before} {number} 255"), "write".to_string()]);
        commands.extend([format!("device 1 0 3 {number}"), "trial T".to_string(), "write".to_string()]);
    }
    commands.into_iter().map(String::into_bytes).collect()
}

/// Commands at document 02's limit of rows, for a set-up of one event, with some of its values by a number below 3.
fn limits_of_rows(set_up: &str, value: &dyn Fn(usize) -> String) -> Vec<Vec<u8>> {
    let mut commands = vec![set_up.to_string()];
    let load = |channel: usize, states: usize| format!("load {channel} {}", steps(states - 1));
    // 256 + 256 + 1, with the rule's own refusals before 25; then a row less.
    commands.extend([load(3, 256), load(5, 256), load(0, 1), load(4, 1), load(7, 1), load(8, 1), load(5, 256)]);
    commands.extend(several("load 7 V X0, load 7 X0, load 7 A T, load 7 G1 T, event 7 0, show 3, show 5, clear 7"));
    commands.push(format!("load 7 {}", joined_loops(16, 17)));
    commands.extend([load(5, 255), load(7, 2), load(7, 1), load(6, 1)]);
    // Each has 64 rows; its own are free, and no more.
    commands.push(set_up.to_string());
    commands.extend((0..CHANNELS).map(|channel| load(channel, 64)));
    for channel in 0..CHANNELS {
        commands.extend([load(channel, 65), load(channel, 64), format!("show {channel}")]);
    }
    // A long rule that comes, is replaced by a short one, comes again and goes, between others that go on.
    for long in [0, 3, 7] {
        commands.push(set_up.to_string());
        let others: Vec<usize> = (0..CHANNELS).filter(|&channel| channel != long).collect();
        let on_others = |command: &str, end: &str| -> Vec<String> {
            others.iter().map(|channel| format!("{command} {channel}{end}")).collect()
        };
        let load =
            |channel: usize, steps: usize, last: usize| format!("load {channel} {}O0.{}", "G0 ".repeat(steps), value(last));
        commands.extend(others.iter().map(|&channel| load(channel, 28 + channel, channel % 3)));
        commands.extend(on_others("events", &" 0".repeat(20)));
        for (steps, times) in [(253, 256), (1, 4), (253, 300)] {
            commands.push(load(long, steps, 1));
            commands.extend(on_others("events", " 0 0"));
            commands.push(format!("events {long}{}", " 0".repeat(times)));
        }
        commands.push(format!("clear {long}"));
        commands.extend(on_others("events", &" 0".repeat(12)));
        commands.push("restart all".to_string());
        commands.extend(on_others("events", &" 0".repeat(38)));
    }
    commands.push(set_up.to_string());
    commands.into_iter().map(String::into_bytes).collect()
}

/// Commands at the limits of document 02's F-7.
fn limits_of_registers() -> Vec<Vec<u8>> {
    let mut commands = Vec::new();
    commands.extend(limits_of_lines());
    commands.extend([1, 8, 15, 16].into_iter().flat_map(limits_of_masks));
    commands.extend(marked_cases());
    commands.extend(sixteen_events_and_lines());
    commands.extend(both_kinds_in_turn());
    commands.extend(long_devices());
    commands.into_iter().map(String::into_bytes).collect()
}

/// Events and lines at the ends of their ranges; 1 comes before 20, and 20 before 18. What is refused leaves all as it was.
fn limits_of_lines() -> Vec<String> {
    let mut commands = several("register 2 16, load 0 V A O0.65535.1 G0 X0, event 0 0 7, device 1 0 9.9 0 9.9 0");
    for wheel in ["wheel 100 314", "wheel 0 1"] {
        commands.push(wheel.to_string());
        for lines in ["0", "17", "18", "255", "256", "257", "272", "65537", "4294967297", "18446744073709551617"] {
            commands.extend(["0", "1", "16", "17", "65537"].map(|events| format!("register {events} {lines}")));
            commands.extend(several("event 0 0 7, write"));
        }
        commands.extend(several(
            "register 1 1, register 16 1, register 1 16, register 16 16, register 0 1, register 17 16, show 0",
        ));
    }
    commands.extend(several("wheel 65535 1, register 2 16, load 0 T, event 0 0 65536, wheel 100 314, register 2 16, load 0 T"));
    commands.extend(several("event 0 0 7, register, register 1, register 1 1 1, register x 1, register 1 x, register 1 1.1"));
    commands.extend(several("register 0002 0016, show 0, help"));
    commands
}

/// Masks about the number of lines, and those that have more digits or bits than a mask may have, in tokens and in devices.
fn limits_of_masks(lines: usize) -> Vec<String> {
    let all = (1usize << lines) - 1;
    let mut commands = vec![format!("register 2 {lines}")];
    for mask in [0, 1, all, all + 1, 65_535, 65_536, 65_537, 98_304, 99_999, 100_000] {
        for value in [format!("{mask}.0"), format!("0.{mask}"), format!("{mask}.{all}")] {
            commands.push(format!("table A T O1.{value}"));
            commands.push(format!("device 1 0 {value} 0 {all}.{all} 0"));
            commands.push("write".to_string());
        }
        let value = format!("{all}.{mask}");
        commands.extend([format!("load 0 O0.{value}"), "event 0 0".to_string(), "events 0 0 1".to_string()]);
        commands.extend([
            format!("dot O1.{value}"),
            format!("trial O1.{value}"),
            format!("covers O0.{value} / O0.{mask}.{all}"),
        ]);
    }
    // A bit of each line, in one mask or the other, is low, high or both.
    for line in 0..lines {
        let bit = 1 << line;
        commands.push(format!("device 1 0 {bit}.{} 0 {}.{bit} 0", all - bit, all - bit));
        commands.extend([format!("trial O0.{bit}.{all}"), format!("trial O0.{all}.{bit}"), format!("trial O1.{all}.{bit}")]);
    }
    commands
}

/// Document 01's marked cases for a register of four lines, and tokens that are not in its form.
fn marked_cases() -> Vec<String> {
    let mut commands = vec!["register 2 4".to_string()];
    for tokens in [
        "T",
        "A O1.15.14 V G1 X0",
        "A O0.15.14 O0.14.15",
        "V A G1 O1.15.14 G1 X0",
        "X0",
        "V X0",
        "V A G0 X0 X0",
        "V G0 V A X1 G0 X0",
        "A T",
        "T T",
        "V V G0 X1",
        "O1.15",
        "O1.15.",
        "O1..15",
        "O.15.15",
        "O1",
        "O1.15.15.15",
        "O1.015.15",
        "O1.15.00",
        "O01.1.1",
        "O1.15.15 ",
        "O1.15.15x",
        "O1000.1.1",
        "O256.1.1",
        "O1.1.1 T",
        "X256",
        "A X0 O0.99999.0",
    ]
    .map(str::to_string)
    .into_iter()
    .chain([257, 258].map(|count| vec!["T"; count].join(" ")))
    .chain([13, 14, 15, 20].map(|binders| under(binders, "T")))
    .chain([16, 18, 19, 23, 25].map(|length| joined_loops(length, 17)))
    .chain([64, 65, 66, 67, 68].map(steps))
    {
        commands.extend(["table", "dot", "load 0"].map(|command| format!("{command} {tokens}")));
        commands.extend(several("events 0 1 1 1 0, event 0 1 3"));
        commands.extend([format!("covers {tokens} / T"), format!("covers O1.0.0 / {tokens}")]);
    }
    commands.extend(several("device 2 0 15.14 0 14.15 1 14.15 1 15.14 1, write, trial O0.15.14, trial O0.14.14"));
    commands.extend(several("device 1 0 15.15 0 15.15 0, trial A O0.15.14 O0.14.15, trial T, device 1 0 0.0 0 0.0 0, trial T"));
    commands
}

/// Rules of a register on each of sixteen events, each with a line of its own.
fn sixteen_events_and_lines() -> Vec<String> {
    let of_event = |event: usize| {
        let rule = format!("load 0 V A O{event}.65535.{} G{event} X0", 1 << event);
        ["register 16 16".to_string(), rule, format!("events 0 0 {event} {event} 15")]
    };
    (0..16).flat_map(of_event).collect()
}

/// Set-ups of both kinds, each with a device, a rule and distances; a device of the other kind is dropped, one of the same kind is kept, and
/// what is refused leaves all as it was.
fn both_kinds_in_turn() -> Vec<String> {
    let numbers = SET_UP.replacen("setup 1 ", "setup 2 ", 1);
    let of_numbers =
        several("device 1 0 1 0 2 0, load 0 V A O0.1 G0 X0, load 1 O0.1.1, device 1 0 1.1 0 2.2 0, trial O0.1, write");
    let of_register =
        several("device 1 0 1.2 0 2.1 0, load 0 V A O0.1.2 G0 X0, load 1 O0.1, device 1 0 1 0 2 0, trial O0.1.2, write");
    let used = several("event 0 0, event 0 0 5, events 0 0 1 0, show 0, show 1, trial T, trial O0.1, trial O0.1.2, write");
    let refused = several(
        "register 2 17, register 0 2, setup 2 4 4 0, setup 17 1 0 0, register 2, setup 2 4, restart 8, clear x, show x, device 1, help",
    );
    let mut commands = Vec::new();
    for register in ["register 2 2", "register 2 16", "register 2 1", "register 1 2"] {
        for (set_up, more) in [(numbers.as_str(), &of_numbers), (register, &of_register)] {
            commands.push(set_up.to_string());
            commands.extend(used.iter().chain(more).chain(&used).chain(&refused).chain(&used).cloned());
            // Set up again, the device stays.
            commands.push(set_up.to_string());
            commands.extend(used.clone());
        }
        // Another register keeps the device, whatever its lines; so does another set of values one of numbers.
        commands
            .extend(several("register 2 3, write, trial O0.1.2, trial T, register 16 16, write, register 2 1, write, trial T"));
        commands.push(SET_UP.replacen("setup 1 ", "setup 16 ", 1));
        commands.extend(several("write, device 1 0 1 0, write, load 0 V A O15.1 G15 X0, events 0 0 15 15 14"));
        commands.extend([SET_UP.to_string(), "write".to_string()]);
    }
    commands
}

/// Devices of registers of as many entries as there may be, and of more than a table has; lists that end behind a value, and numbers that
/// are too large, or no numbers, at their ends.
fn long_devices() -> Vec<String> {
    let mut commands = vec!["register 16 1".to_string()];
    let device = |states: usize, entries: usize, end: &str| format!("device {states} 0{}{end}", " 1.1 0".repeat(entries));
    for (states, entries, end) in [
        (256, 4096, ""),
        (256, 4095, " 0.0 255"),
        (256, 4095, " 1.1 256"),
        (256, 4095, " 65536.1 0"),
        (256, 4095, " 1.1"),
        (256, 4096, " 1.1"),
        (256, 4096, " 1.1 0"),
        (256, 4095, " 1.1 x"),
        (256, 4096, " x"),
        (256, 5400, ""),
        (256, 5400, " 1.1"),
        (256, 5400, " 1.65536 0"),
        (256, 5400, " 1"),
        (257, 4112, ""),
        (64, 1024, ""),
        (65, 1040, ""),
        (1, 0, " 1.1"),
        (1, 15, " 1.1"),
        (1, 16, " 1.1"),
        (1, 17, " 1.1"),
        (1, 31, " 1.1"),
        (2, 31, " 1.1"),
        (2, 32, " 0.0"),
        (3, 47, " 0.1"),
        (1, 16, " 65536.0"),
    ] {
        commands.extend([device(states, entries, end), "write".to_string(), "trial T".to_string()]);
    }
    for next in ["1", "255", "256", "257", "511", "512", "65535", "65536", "4294967295", "4294967296", "18446744073709551616"] {
        commands.extend([device(1, 15, &format!(" 1.1 {next}")), "write".to_string()]);
        commands.extend([device(1, 16, &format!(" 1.1 {next}")), "trial T".to_string()]);
    }
    // One event: from its last state on a chain is one state long.
    commands.push("register 1 16".to_string());
    for states in [1, 12, 13, 63, 64, 65, 255, 256, 257] {
        for start in [0, states - 1, states] {
            let entries = (0..states).map(|state| format!(" 65535.{} {}", state % 2, (state + 1).min(states - 1).min(255)));
            commands.push(format!("device {states} {start}{}", entries.collect::<String>()));
            commands.extend(several("write, trial T, trial V A O0.65535.1 G0 X0, trial O0.65534.65535"));
        }
    }
    commands
}

/// Commands at the limits of document 02's F-6, for one event.
fn limits_of_distances() -> Vec<Vec<u8>> {
    let mut commands = limits_of_totals(SET_UP);
    commands.extend(limits_of_totals("register 1 2"));
    for pulses in ["0", "1", "65535", "65536"] {
        for millimetres in ["0", "1", "65535", "65536"] {
            commands.extend(wheel_at_set_ups(pulses, millimetres));
        }
    }
    // No number is capped or wraps to one that a wheel may have.
    for large in
        ["65537", "131071", "4294967295", "4294967296", "4294967297", "18446744073709551617", "99999999999999999999999"]
    {
        commands.extend(wheel_at_set_ups(large, "1"));
        commands.extend(wheel_at_set_ups("1", large));
    }
    // The wheel that the next set-ups have.
    commands.extend(wheel_at_set_ups("100", "314"));
    commands.into_iter().map(String::into_bytes).collect()
}

/// The first wheel; then a channel's total at its limit and beyond it, what leaves it and what zeroes it.
fn limits_of_totals(set_up: &str) -> Vec<String> {
    let mut commands = several("load 1 T, event 1 0 1, event 1 0 4294967295, show 1, wheel 7 65535");
    commands.push(set_up.to_string());
    commands.extend(several("load 0 T, load 1 T, event 1 0 1"));
    commands.extend(std::iter::repeat_n("event 0 0 4294967295".to_string(), 256));
    commands.extend(several("show 0, event 0 0 257, event 0 0 255, show 0, event 0 0 2, event 0 1 2, event 0 0 1, show 0"));
    commands.extend(several("event 0 0 1, event 0 1 1, event 0 0 0, event 0 0, events 0 0 0, event 0 0 4294967296"));
    commands.extend(several("event 0 0 4294967295, event 2 0 1, event 8 0 1, show 0, show 1, event 1 0 4294967295"));
    commands.extend(several("restart 0, show 0, event 0 0 4294967295, restart all, show 0, show 1, event 1 0 1"));
    commands.extend(several("load 1 G0 T, show 1, event 1 0 1, load 1 V X0, show 1, clear 1, show 1, load 1 T, show 1"));
    commands
}

/// A wheel, which leaves the tool's own, then set-ups that 1 to 3 or 20 refuse and two that only 18 may refuse.
fn wheel_at_set_ups(pulses: &str, millimetres: &str) -> Vec<String> {
    let mut commands = vec![format!("wheel {pulses} {millimetres}")];
    commands.extend(several("event 1 0 7, setup 0 1 0 0, setup 1 1 1 0, setup 1 1 0 1, register 17 0, register 1 17, show 1"));
    commands.extend(several("register 1 1, show 1, load 1 O0.0.1, event 1 0 65534"));
    commands.push(SET_UP.to_string());
    commands.extend(several("show 1, load 1 T, event 1 0 4294967295, event 1 0 65534"));
    commands
}

/// Commands with a comma between two.
fn several(commands: &str) -> Vec<String> {
    commands.split(", ").map(str::to_string).collect()
}

/// Event 0 so many times, then T.
fn steps(count: usize) -> String {
    "G0 ".repeat(count) + "T"
}

/// Two loops on event 0, of these lengths, joined by A.
fn joined_loops(first: usize, second: usize) -> String {
    let of = |length: usize| format!("V {}X0", "G0 ".repeat(length));
    format!("A {} {}", of(first), of(second))
}

/// A chain of states whose last returns to itself, as a device.
fn chain(states: usize) -> String {
    let entries = RawTable::chain(states, 3).bytes;
    device_of(states, |state| (entries[2 * state].into(), entries[2 * state + 1].into()))
}

/// A device for one event by the value and the next state of each state.
fn device_of(states: usize, entry: impl Fn(usize) -> (usize, usize)) -> String {
    let entries = (0..states).map(entry).map(|(value, next)| format!(" {value} {next}"));
    format!("device {states} 0{}", entries.collect::<String>())
}
