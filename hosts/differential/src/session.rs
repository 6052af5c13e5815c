//! The command program as docs/DECISIONS.md, "Command program", has it; every judgement is the reference's.

use std::fmt::{Display, Write};

use gurvazze_reference::formula::{Rule, MAX_NODES};
use gurvazze_reference::generate::RawTable;
use gurvazze_reference::table::Table;
use gurvazze_reference::tool::{Reading, Tool, Wheel, CHANNELS};
use gurvazze_reference::trial::{covers, trial_of_rule, Grade, Outcome, WORD_BYTES};
use gurvazze_reference::values::{of_masks, Kind, RawSetUp, SetUp, Value};
use gurvazze_reference::{channel_file, characteristic, render, Refusal};

/// "A line has at most 32,768 bytes".
pub const LINE_BYTES: usize = 32_768;

const HELP: &str = "\
setup EVENTS VALUES TOP MEET...   the set-up; channels are empty
register EVENTS LINES             the set-up for a register; channels are empty
wheel P C                         pulses and millimetres per turn of the wheel, for the next set-up
table TOKENS                      the table of a rule
load C TOKENS                     a rule into channel C
event C E                         event E on channel C
event C E PULSES                  the same with pulses, and the distance
events C E E...                   events on channel C, all or none
restart C                         channel C at state 0
restart all                       every loaded channel at state 0
clear C                           channel C empty
show C                            what channel C holds
device STATES START V N V N...    a device to keep; judged when it is used
trial TOKENS                      the device against a rule
covers TOKENS / TOKENS            whether the first rule implies the second
write                             the rule of the device
dot TOKENS                        the table of a rule as a Graphviz digraph
help                              this list
";

/// What a line came to.
pub struct Answer {
    /// The command, as the tally names it.
    pub command: &'static str,
    /// What is printed.
    pub text: String,
}

impl Answer {
    /// Whether it is `refused=` or `error=`.
    pub fn is_refused(&self) -> bool {
        self.text.starts_with("refused=") || self.text.starts_with("error=")
    }
}

/// Why a command has no other answer.
enum Problem {
    /// A reason of `error=`.
    Error(&'static str),
    Refused(Refusal),
}

impl From<Refusal> for Problem {
    fn from(refusal: Refusal) -> Problem {
        Problem::Refused(refusal)
    }
}

type Reply = Result<String, Problem>;

/// A tool that was set up.
struct Ready {
    set_up: SetUp,
    tool: Tool,
}

/// What the program keeps from line to line.
pub struct Session {
    /// Judged at each set-up; a tool that was set up has its own.
    wheel: Wheel,
    ready: Option<Ready>,
    device: Option<RawTable>,
}

/// Before any line.
impl Default for Session {
    fn default() -> Session {
        Session { wheel: Wheel { pulses: 1, millimetres: 1 }, ready: None, device: None }
    }
}

impl Session {
    /// The set-up, once one was accepted.
    pub fn set_up(&self) -> Option<&SetUp> {
        self.ready.as_ref().map(|ready| &ready.set_up)
    }

    /// The kind of the set-up in force; before any set-up that of numbers.
    pub fn kind(&self) -> Kind {
        self.set_up().map_or(Kind::Numbers, SetUp::kind)
    }

    /// The tool, once a set-up was accepted.
    pub fn tool(&self) -> Option<&Tool> {
        self.ready.as_ref().map(|ready| &ready.tool)
    }

    /// How many rows each channel has (document 02, F-12).
    pub fn rows(&self) -> [usize; CHANNELS] {
        self.tool().map_or([0; CHANNELS], |tool| std::array::from_fn(|channel| tool.channels[channel].states))
    }

    /// The device, once one was kept.
    pub fn device(&self) -> Option<&RawTable> {
        self.device.as_ref()
    }

    /// The wheel that the next set-up is given.
    pub fn wheel(&self) -> Wheel {
        self.wheel
    }

    /// The answer to a line without its byte 10; an empty line and a comment have none.
    pub fn answer(&mut self, line: &[u8]) -> Option<Answer> {
        if line.len() > LINE_BYTES {
            return Some(Answer { command: "line", text: "error=line\n".to_string() });
        }
        let line = Line { bytes: line, words: words(line) };
        let first = *line.words.first()?;
        if first.starts_with(b"#") {
            return None;
        }
        let mut command = name(first);
        let text = match self.obey(command, &line) {
            Ok(text) => text,
            Err(Problem::Error(reason)) => format!("error={reason}\n"),
            Err(Problem::Refused(refusal)) => render::refusal(refusal),
        };
        if line.words == [&b"restart"[..], b"all"] {
            command = "restart all";
        }
        Some(Answer { command, text })
    }

    fn obey(&mut self, command: &str, line: &Line) -> Reply {
        match command {
            "unknown" => return Err(Problem::Error("command")),
            "help" => return Ok(HELP.to_string()),
            "setup" => return self.set_up_numbers(line),
            "register" => return self.set_up_register(line),
            "wheel" => return self.keep_wheel(line),
            "device" => return self.keep_device(line),
            _ => {}
        }
        let ready = self.ready.as_mut().ok_or(Problem::Error("setup"))?;
        let device = self.device.as_ref();
        match command {
            "table" => ready.table(line),
            "dot" => ready.dot(line),
            "load" => ready.load(line),
            "event" => ready.event(line),
            "events" => ready.events(line),
            "restart" => ready.restart(line),
            "clear" => ready.clear(line),
            "show" => ready.show(line),
            "trial" => ready.trial(device, line),
            "covers" => ready.covers(line),
            _ => ready.write(device, line),
        }
    }

    fn set_up_numbers(&mut self, line: &Line) -> Reply {
        line.at_least(4)?;
        let (events, values, top) = (line.number(1)?, line.number(2)?, line.number(3)?);
        self.set_up_anew(RawSetUp::numbers(events, values, top, line.bytes_from(4)?))
    }

    fn set_up_register(&mut self, line: &Line) -> Reply {
        line.exactly(3)?;
        self.set_up_anew(RawSetUp::register(line.number(1)?, line.number(2)?))
    }

    /// "A new set-up empties the channels and keeps the device; a refused one leaves all as it was." A device of the other kind is dropped.
    fn set_up_anew(&mut self, raw: RawSetUp) -> Reply {
        let tool = Tool::new(raw.clone(), self.wheel)?;
        if raw.kind() != self.kind() {
            self.device = None;
        }
        self.ready = Some(Ready { set_up: SetUp::new(raw)?, tool });
        Ok("ok\n".to_string())
    }

    /// The wheel is judged at the next set-up.
    fn keep_wheel(&mut self, line: &Line) -> Reply {
        line.exactly(3)?;
        self.wheel = Wheel { pulses: line.number(1)?, millimetres: line.number(2)? };
        Ok("ok\n".to_string())
    }

    /// The device is read by the kind of the set-up in force and judged when it is used. A number that no byte holds, or no mask, is too
    /// large in every table: the device is kept as one of no states, which is 11 too. All of the list is read, however long it is.
    fn keep_device(&mut self, line: &Line) -> Reply {
        line.at_least(3)?;
        let (states, start) = (line.number(1)?, line.number(2)?);
        let bytes = match self.kind() {
            Kind::Numbers => bytes_of(&line.numbers_from(3)?),
            Kind::Register => line.masks_and_states_from(3)?,
        };
        self.device = Some(match bytes {
            Some(bytes) => RawTable { states, start, bytes },
            None => RawTable { states: 0, start, bytes: Vec::new() },
        });
        Ok("ok\n".to_string())
    }
}

impl Ready {
    /// The rule in bytes: "tokens keep the channel file's form", and "Tokens too long for a channel file are `error=tokens`".
    fn rule(&self, tokens: &[u8]) -> Result<Vec<u8>, Problem> {
        let mut text = channel_file::head(&self.set_up).into_bytes();
        text.extend_from_slice(tokens);
        text.push(b'\n');
        channel_file::lines_of(self.set_up.kind(), &text).map(|lines| lines.rule).map_err(|_| Problem::Error("tokens"))
    }

    /// A value as it is printed: a number, or LOW.HIGH.
    fn value(&self, value: Value) -> String {
        self.set_up.kind().numbers_of(value).iter().map(usize::to_string).collect::<Vec<String>>().join(".")
    }

    fn table_of(&self, tokens: &[u8]) -> Result<Table, Problem> {
        let rule = Rule::from_bytes(&self.set_up, &self.rule(tokens)?)?;
        Ok(Table::of_rule(&self.set_up, &rule)?)
    }

    fn table(&self, line: &Line) -> Reply {
        let text = render::table(&self.table_of(line.rest(1))?);
        // Without the line of events.
        Ok(text[text.find("states=").expect("a table has states")..].to_string())
    }

    fn dot(&self, line: &Line) -> Reply {
        let table = self.table_of(line.rest(1))?;
        let mut text = "digraph table {\n".to_string();
        for (index, entry) in table.entries().iter().enumerate() {
            let (state, event) = (index / table.events(), index % table.events());
            let value = if entry.value == self.set_up.top() { "open".to_string() } else { self.value(entry.value) };
            add(&mut text, format_args!("  {state} -> {} [label=\"{event}/{value}\"];\n", entry.next));
        }
        text.push_str("}\n");
        Ok(text)
    }

    fn load(&mut self, line: &Line) -> Reply {
        line.at_least(2)?;
        let channel = line.number(1)?;
        let rule = self.rule(line.rest(2))?;
        self.tool.load(channel, &rule)?;
        Ok(format!("states={}\n", self.tool.channels[channel].states))
    }

    fn event(&mut self, line: &Line) -> Reply {
        if line.words.len() == 4 {
            return self.event_with_pulses(line);
        }
        line.exactly(3)?;
        let (channel, event) = (line.number(1)?, line.number(2)?);
        let value = self.tool.event(channel, event, 0)?.value;
        Ok(format!("value={}\n", self.value(value)))
    }

    fn event_with_pulses(&mut self, line: &Line) -> Reply {
        let (channel, event, pulses) = (line.number(1)?, line.number(2)?, line.pulses(3)?);
        let Reading { value, distance } = self.tool.event(channel, event, pulses)?;
        Ok(format!("value={} mm={} rest={}\n", self.value(value), distance.millimetres, distance.rest))
    }

    /// All or none, without pulses. 14 and 15 are those of a restart, also where there are no events.
    fn events(&mut self, line: &Line) -> Reply {
        line.at_least(2)?;
        let channel = line.number(1)?;
        let events = line.numbers_from(2)?;
        self.tool.clone().restart_one(channel)?;
        let mut after = self.tool.clone();
        let values = events.iter().map(|&event| Ok(after.sound_event(channel, event, 0)?.value));
        let values = values.collect::<Result<Vec<Value>, Refusal>>()?;
        self.tool = after;
        Ok(list("values=", values.into_iter().map(|value| self.value(value))))
    }

    fn restart(&mut self, line: &Line) -> Reply {
        line.exactly(2)?;
        if line.words[1] == b"all" {
            self.tool.restart_all()?;
        } else {
            self.tool.restart_one(line.number(1)?)?;
        }
        Ok("ok\n".to_string())
    }

    fn clear(&mut self, line: &Line) -> Reply {
        line.exactly(2)?;
        self.tool.clear(line.number(1)?)?;
        Ok("ok\n".to_string())
    }

    fn show(&self, line: &Line) -> Reply {
        line.exactly(2)?;
        let number = line.number(1)?;
        if number >= CHANNELS {
            return Err(Refusal::new(14).into());
        }
        let channel = &self.tool.channels[number];
        if channel.is_empty() {
            return Ok("empty\n".to_string());
        }
        Ok(format!("states={} state={} total={}\n", channel.states, channel.current, channel.total))
    }

    fn trial(&self, device: Option<&RawTable>, line: &Line) -> Reply {
        let device = device.ok_or(Problem::Error("device"))?;
        let rule = self.rule(line.rest(1))?;
        let mut word = [0; WORD_BYTES];
        Ok(match trial_of_rule(self.set_up.raw(), device.lent(), &rule, &mut word)? {
            Outcome::Passes(Grade::Same) => "pass=same\n".to_string(),
            Outcome::Passes(Grade::Stricter) => "pass=stricter\n".to_string(),
            Outcome::Fails(length) => list("fail=", &word[..length]),
        })
    }

    /// Both rules' tokens come before any refusal.
    fn covers(&self, line: &Line) -> Reply {
        let (first, second) = two_parts(line.rest(1));
        let (first, second) = (self.rule(first)?, self.rule(second)?);
        Ok(match covers(self.set_up.raw(), &first, &second)? {
            None => "yes\n".to_string(),
            Some(word) => list("no=", &word),
        })
    }

    fn write(&self, device: Option<&RawTable>, line: &Line) -> Reply {
        line.exactly(1)?;
        let device = device.ok_or(Problem::Error("device"))?;
        let node_bytes = self.set_up.kind().node_bytes();
        let mut nodes = vec![0; MAX_NODES * node_bytes];
        let count = characteristic::write_rule(self.set_up.raw(), device.lent(), &mut nodes)?;
        let rule = Rule::from_bytes(&self.set_up, &nodes[..count * node_bytes])?;
        let text = channel_file::to_text(&self.set_up, &rule);
        Ok(text[text.find("rule=").expect("a file has a rule line")..].to_string())
    }
}

/// A line and its words.
struct Line<'a> {
    bytes: &'a [u8],
    words: Vec<&'a [u8]>,
}

impl<'a> Line<'a> {
    fn at_least(&self, count: usize) -> Result<(), Problem> {
        if self.words.len() < count {
            return Err(Problem::Error("arguments"));
        }
        Ok(())
    }

    fn exactly(&self, count: usize) -> Result<(), Problem> {
        if self.words.len() != count {
            return Err(Problem::Error("arguments"));
        }
        Ok(())
    }

    /// The line from a word on, with the spaces behind it; nothing where there is no such word.
    fn rest(&self, index: usize) -> &'a [u8] {
        let mut rest = self.bytes;
        for word in &self.words[..index.min(self.words.len())] {
            rest = &without_spaces(rest)[word.len()..];
        }
        without_spaces(rest)
    }

    fn number(&self, index: usize) -> Result<usize, Problem> {
        number(self.words[index])
    }

    /// Pulses: a number of at most 4,294,967,295.
    fn pulses(&self, index: usize) -> Result<u32, Problem> {
        u32::try_from(self.number(index)?).map_err(|_| Problem::Error("number"))
    }

    fn numbers_from(&self, index: usize) -> Result<Vec<usize>, Problem> {
        self.words[index.min(self.words.len())..].iter().map(|word| number(word)).collect()
    }

    /// The entries of a register's device in bytes: the words are a value LOW.HIGH and a next state in turn. Nothing where a mask or a next
    /// state is too large.
    fn masks_and_states_from(&self, index: usize) -> Result<Option<Vec<u8>>, Problem> {
        let words = &self.words[index.min(self.words.len())..];
        let entry = |entry: &[&[u8]]| {
            let value = masks(entry[0])?.map(|value| Kind::Register.value_to_bytes(value));
            let next = bytes_of(&entry[1..].iter().map(|word| number(word)).collect::<Result<Vec<usize>, Problem>>()?);
            Ok(value.zip(next).map(|(value, next)| [value, next].concat()))
        };
        let entries = words.chunks(2).map(entry).collect::<Result<Vec<Option<Vec<u8>>>, Problem>>()?;
        Ok(entries.into_iter().collect::<Option<Vec<Vec<u8>>>>().map(|entries| entries.concat()))
    }

    /// Numbers above 255 stand as 255, too large for a value all the same.
    fn bytes_from(&self, index: usize) -> Result<Vec<u8>, Problem> {
        Ok(self.numbers_from(index)?.into_iter().map(|number| u8::try_from(number).unwrap_or(u8::MAX)).collect())
    }
}

/// "A word is a longest run of bytes other than space."
fn words(line: &[u8]) -> Vec<&[u8]> {
    line.split(|&byte| byte == b' ').filter(|word| !word.is_empty()).collect()
}

fn without_spaces(text: &[u8]) -> &[u8] {
    &text[text.iter().position(|&byte| byte != b' ').unwrap_or(text.len())..]
}

/// What stands before and behind the first ` / ` of a text; all of it and nothing where there is none.
fn two_parts(text: &[u8]) -> (&[u8], &[u8]) {
    const BETWEEN: &[u8] = b" / ";
    match text.windows(BETWEEN.len()).position(|window| window == BETWEEN) {
        Some(at) => (&text[..at], &text[at + BETWEEN.len()..]),
        None => (text, &[]),
    }
}

/// The name of a command, `unknown` where there is none.
fn name(word: &[u8]) -> &'static str {
    const NAMES: [&str; 16] = [
        "setup", "register", "wheel", "table", "load", "event", "events", "restart", "clear", "show", "device", "trial",
        "covers", "write", "dot", "help",
    ];
    NAMES.into_iter().find(|name| name.as_bytes() == word).unwrap_or("unknown")
}

/// "A number is one or more digits, and leading zeros say nothing." Numbers too large for a usize stand as its largest.
fn number(word: &[u8]) -> Result<usize, Problem> {
    word.iter().try_fold(0usize, |number, byte| match byte {
        b'0'..=b'9' => Ok(number.saturating_mul(10).saturating_add(usize::from(byte - b'0'))),
        _ => Err(Problem::Error("number")),
    })
}

/// A value word, LOW.HIGH: digits, one dot, digits. Nothing where a mask has more than 16 bits.
fn masks(word: &[u8]) -> Result<Option<Value>, Problem> {
    let parts: Vec<&[u8]> = word.split(|&byte| byte == b'.').collect();
    let (&[low, high], false) = (&parts[..], parts.iter().any(|part| part.is_empty())) else {
        return Err(Problem::Error("number"));
    };
    let (low, high) = (number(low)?, number(high)?);
    Ok(u16::try_from(low).ok().zip(u16::try_from(high).ok()).map(|(low, high)| of_masks(low, high)))
}

/// Numbers as bytes; nothing where one is too large.
fn bytes_of(numbers: &[usize]) -> Option<Vec<u8>> {
    numbers.iter().map(|&number| u8::try_from(number).ok()).collect()
}

/// A key with a list, as a line.
fn list<T: Display>(key: &str, items: impl IntoIterator<Item = T>) -> String {
    let mut text = key.to_string();
    for (index, item) in items.into_iter().enumerate() {
        let space = if index > 0 { " " } else { "" };
        add(&mut text, format_args!("{space}{item}"));
    }
    text.push('\n');
    text
}

fn add(text: &mut String, more: std::fmt::Arguments<'_>) {
    text.write_fmt(more).expect("a string takes everything");
}
