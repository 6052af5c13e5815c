//! Helpers of the tests.
#![allow(dead_code)]

use gurvazze_reference::formula::Rule;
use gurvazze_reference::table::Table;
use gurvazze_reference::tool::{Answer, Call, Distance, Log, Reading, Tool, Wheel};
use gurvazze_reference::values::{Kind, RawSetUp, SetUp, Value};
use gurvazze_reference::Refusal;

/// The four-value set with so many events.
pub fn four(events: usize) -> SetUp {
    SetUp::new(RawSetUp::four_values(events)).unwrap()
}

/// A register of so many lines.
pub fn register(events: usize, lines: usize) -> SetUp {
    SetUp::new(RawSetUp::register(events, lines)).unwrap()
}

/// A wheel of one pulse and one millimetre per turn: a total of pulses is as many whole millimetres.
pub const WHEEL: Wheel = Wheel { pulses: 1, millimetres: 1 };

/// What an event returns at that distance.
pub fn reading(value: Value, millimetres: u64, rest: u64) -> Reading {
    Reading { value, distance: Distance { millimetres, rest } }
}

/// A tool and its log, which answer the same.
pub struct Both {
    /// The tool.
    pub tool: Tool,
    /// Its log.
    pub log: Log,
}

impl Both {
    /// The four-value set with so many events; every channel is empty.
    pub fn new(events: usize, wheel: Wheel) -> Both {
        Both::of(RawSetUp::four_values(events), wheel)
    }

    /// This set-up; every channel is empty.
    pub fn of(raw: RawSetUp, wheel: Wheel) -> Both {
        Both { tool: Tool::new(raw.clone(), wheel).unwrap(), log: Log::new(raw, wheel).unwrap() }
    }

    /// A call by both. Afterwards each channel has the total and the rows that the log has for it.
    pub fn call(&mut self, call: Call) -> Answer {
        let before = self.tool.clone();
        let answer = self.tool.call(&call);
        assert_eq!(answer, self.log.call(&call), "{call:?}");
        if answer.is_err() {
            assert_eq!(self.tool, before, "a refused call changes nothing: {call:?}");
        }
        for (number, channel) in self.tool.channels.iter().enumerate() {
            let of_log = self.log.record(number).map_or((0, 0), |record| (record.total(), record.rows()));
            assert_eq!((channel.total, channel.states), of_log, "{call:?}");
        }
        answer
    }

    /// A load of a rule in items.
    pub fn load(&mut self, channel: usize, items: &str) -> Answer {
        let rule = bytes_of(self.tool.set_up.kind(), items);
        self.call(Call::Load { channel, rule })
    }

    /// An event.
    pub fn event(&mut self, channel: usize, event: usize, pulses: u32) -> Result<Reading, Refusal> {
        self.call(Call::Event { channel, event, pulses }).map(|reading| reading.expect("an event returns a reading"))
    }

    /// A clear.
    pub fn clear(&mut self, channel: usize) -> Answer {
        self.call(Call::Clear { channel })
    }
}

/// So many seeds, times the number in the environment's SEEDS_TIMES where there is one.
pub fn seeds(count: u64) -> std::ops::Range<u64> {
    let times = std::env::var("SEEDS_TIMES").ok().and_then(|times| times.parse().ok()).unwrap_or(1);
    0..count * times
}

/// A rule in bytes from its items.
pub fn bytes(items: &str) -> Vec<u8> {
    bytes_of(Kind::Numbers, items)
}

/// A rule in bytes from its items, for values of this kind.
pub fn bytes_of(kind: Kind, items: &str) -> Vec<u8> {
    items.split(' ').filter(|item| !item.is_empty()).flat_map(|text| item(kind, text)).collect()
}

/// "kind, first, second", or "kind, first, low mask, high mask, each mask's low byte first".
fn item(kind: Kind, item: &str) -> Vec<u8> {
    let (letter, rest) = item.split_at(1);
    let mut numbers = rest.split('.').map(|number| number.parse::<u16>().unwrap_or(0));
    let mut number = || numbers.next().unwrap_or(0);
    let mut bytes = vec!["TXGOAV".find(letter).unwrap() as u8, number() as u8];
    match kind {
        Kind::Numbers => bytes.push(number() as u8),
        Kind::Register => {
            bytes.extend([number(), number()].iter().flat_map(|mask| [mask % 256, mask / 256]).map(|byte| byte as u8))
        }
    }
    bytes
}

/// Event 0 so many times, then T.
pub fn steps(count: usize) -> String {
    "G0 ".repeat(count) + "T"
}

/// Two loops on event 0, of these lengths, joined by A.
pub fn joined_loops(first: usize, second: usize) -> String {
    let of = |length: usize| format!("V {}X0", "G0 ".repeat(length));
    format!("A {} {}", of(first), of(second))
}

/// A checked rule from its items.
pub fn rule(set_up: &SetUp, items: &str) -> Result<Rule, Refusal> {
    Rule::from_bytes(set_up, &bytes_of(set_up.kind(), items))
}

/// The table of a rule from its items.
pub fn table(set_up: &SetUp, items: &str) -> Result<Table, Refusal> {
    Table::of_rule(set_up, &rule(set_up, items)?)
}

/// A file of a register with two events, four lines and these items.
pub fn register_file(items: &str) -> Vec<u8> {
    format!("events=2\nlines=4\nrule={items}\n").into_bytes()
}

/// A file of the four-value set with two events and these items.
pub fn file(items: &str) -> Vec<u8> {
    format!("events=2\nvalues=4\ntop=3\nmeet=0 0 0 0 0 1 0 1 0 0 2 2 0 1 2 3\nrule={items}\n").into_bytes()
}
