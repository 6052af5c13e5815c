//! Handed-in tools in flat arrays (document 02, F-12), held against the tool that has each channel's rows by itself.
//!
//! The rows of all channels stand one behind another in channel order, `events` cells each, from the front of two arrays of 8,192 cells.
//! Where a channel's rows begin is not kept: it follows from the numbers of states of the channels before it. So no two channels can
//! overlap, whatever numbers a tool is handed in with; cells behind the arrays are read as 0.

mod common;

use common::{seeds, WHEEL};
use gurvazze_reference::formula::Rule;
use gurvazze_reference::generate::Generator;
use gurvazze_reference::table::{Entry, Table};
use gurvazze_reference::tool::{Answer, Call, Channel, Reading, Tool, Wheel, CHANNELS, MAX_TOTAL};
use gurvazze_reference::values::{Kind, RawSetUp, SetUp};
use gurvazze_reference::Refusal;

/// 512 rows of 16 events.
const CELLS: usize = 8192;

#[derive(Clone, Debug, PartialEq)]
struct Cells {
    set_up: RawSetUp,
    wheel: Wheel,
    counts: [u16; CHANNELS],
    currents: [u8; CHANNELS],
    totals: [u64; CHANNELS],
    entries: Vec<Entry>,
}

const ZERO: Entry = Entry { value: 0, next: 0 };

impl Cells {
    fn new(set_up: &SetUp, wheel: Wheel) -> Cells {
        let (counts, currents, totals) = ([0; CHANNELS], [0; CHANNELS], [0; CHANNELS]);
        Cells { set_up: set_up.raw().clone(), wheel, counts, currents, totals, entries: vec![ZERO; CELLS] }
    }

    /// The cells of the channels below this one.
    fn start(&self, channel: usize) -> usize {
        self.counts[..channel].iter().map(|&count| usize::from(count)).sum::<usize>() * self.set_up.events
    }

    fn cell(&self, at: usize) -> Entry {
        self.entries.get(at).copied().unwrap_or(ZERO)
    }

    /// What the cells say of each channel.
    fn tool(&self) -> Tool {
        let channel = |number: usize| Channel {
            states: self.counts[number].into(),
            current: self.currents[number].into(),
            entries: (self.start(number)..self.start(number + 1)).map(|at| self.cell(at)).collect(),
            total: self.totals[number],
        };
        Tool { set_up: self.set_up.clone(), wheel: self.wheel, channels: std::array::from_fn(channel) }
    }

    /// 17 of the set-up and of these channels, then 25.
    fn check(&self, mut looked_at: std::ops::Range<usize>) -> Result<(), Refusal> {
        if self.set_up.check().is_err() || self.wheel.check().is_err() || looked_at.any(|channel| self.is_spoilt(channel)) {
            return Err(Refusal::new(17));
        }
        if self.start(CHANNELS) > 512 * self.set_up.events {
            return Err(Refusal::new(25));
        }
        Ok(())
    }

    fn is_spoilt(&self, channel: usize) -> bool {
        let states = usize::from(self.counts[channel]);
        let is_bad = |entry: Entry| !self.set_up.has(entry.value) || usize::from(entry.next) >= states;
        let bad_cell = || (self.start(channel)..self.start(channel + 1)).any(|at| is_bad(self.cell(at)));
        let bad_numbers = states > 256 || usize::from(self.currents[channel]) >= states || self.totals[channel] > MAX_TOTAL;
        states > 0 && (bad_numbers || bad_cell())
    }

    /// What lies before the channel's rows, the new rows, the later channels' rows, then zeros.
    fn splice(&mut self, channel: usize, rows: &[Entry]) {
        let (from, to, end) = (self.start(channel), self.start(channel + 1), self.start(CHANNELS));
        let mut entries = [&self.entries[..from], rows, &self.entries[to..end]].concat();
        entries.resize(CELLS, ZERO);
        self.entries = entries;
        self.counts[channel] = (rows.len() / self.set_up.events) as u16;
        self.restart(channel);
    }

    fn restart(&mut self, channel: usize) {
        self.currents[channel] = 0;
        self.totals[channel] = 0;
    }

    fn call(&mut self, call: &Call) -> Answer {
        let named = call.channel().unwrap_or(0);
        self.check(match call {
            Call::RestartAll => 0..CHANNELS,
            _ => named.min(CHANNELS)..named.saturating_add(1).min(CHANNELS),
        })?;
        if named >= CHANNELS {
            return Err(Refusal::new(14));
        }
        let is_empty = self.counts[named] == 0;
        match call {
            Call::Event { .. } | Call::RestartOne { .. } if is_empty => return Err(Refusal::new(15)),
            Call::Load { rule, .. } => self.load(named, rule)?,
            Call::Event { event, pulses, .. } => return self.event(named, *event, *pulses).map(Some),
            Call::RestartOne { .. } => self.restart(named),
            Call::RestartAll => (0..CHANNELS)
                .filter(|&channel| self.counts[channel] > 0)
                .collect::<Vec<_>>()
                .into_iter()
                .for_each(|c| self.restart(c)),
            Call::Clear { .. } => self.splice(named, &[]),
        }
        Ok(None)
    }

    fn load(&mut self, channel: usize, rule: &[u8]) -> Result<(), Refusal> {
        let set_up = SetUp::new(self.set_up.clone())?;
        let rows = Table::of_rule(&set_up, &Rule::from_bytes(&set_up, rule)?)?.into_entries();
        let own = usize::from(self.counts[channel]) * self.set_up.events;
        if self.start(CHANNELS) - own + rows.len() > 512 * self.set_up.events {
            return Err(Refusal::new(25));
        }
        self.splice(channel, &rows);
        Ok(())
    }

    fn event(&mut self, channel: usize, event: usize, pulses: u32) -> Result<Reading, Refusal> {
        if event >= self.set_up.events {
            return Err(Refusal::new(16));
        }
        let total = self.totals[channel] + u64::from(pulses);
        if total > MAX_TOTAL {
            return Err(Refusal::new(19));
        }
        let state = usize::from(self.currents[channel]);
        let Entry { value, next } = self.entries[self.start(channel) + state * self.set_up.events + event];
        self.currents[channel] = next;
        self.totals[channel] = total;
        Ok(Reading { value, distance: self.wheel.distance(total) })
    }
}

/// The same call on both: the answer is the same, and so is what each channel holds then. An empty channel holds what it did.
fn same(cells: &mut Cells, call: &Call) -> Answer {
    let before = cells.clone();
    let mut tool = cells.tool();
    let answer = cells.call(call);
    assert_eq!(answer, tool.call(call), "{call:?}");
    assert_eq!(cells.tool(), tool, "{call:?}");
    if answer.is_err() {
        assert_eq!(*cells, before, "{call:?}");
    } else if matches!(call, Call::Load { .. } | Call::Clear { .. }) {
        assert!(cells.entries[cells.start(CHANNELS)..].iter().all(|&entry| entry == ZERO), "{call:?}");
    } else {
        assert_eq!(cells.entries, before.entries, "{call:?}");
    }
    answer
}

/// From a set-up on nothing is spoilt, and all rows stand where they belong.
#[test]
fn flat_arrays_are_the_tool() {
    let mut numbers = [0; 26];
    for seed in seeds(60) {
        let mut g = Generator::new(seed);
        let (set_up, wheel) = (g.any_set_up(), g.wheel());
        let mut cells = Cells::new(&set_up, wheel);
        let calls = if g.once_in(3) { g.calls(&set_up, 100) } else { g.calls_about_rows(&set_up, 200) };
        for call in &calls {
            let answer = same(&mut cells, call);
            numbers[answer.map_or_else(|refusal| usize::from(refusal.number), |_| 0)] += 1;
        }
    }
    assert!(numbers[0] > 2000 && numbers[25] > 100 && numbers[17] == 0, "{numbers:?}");
}

/// How many states a handed-in tool says that its channels have: about 512 together, or any numbers.
fn counts(g: &mut Generator) -> [u16; CHANNELS] {
    let mut counts = [0; CHANNELS];
    match g.below(4) {
        0 => counts.fill_with(|| g.one_of(&[0, 1, 3, 64, 255, 256, 257, 512, 513, 65_535])),
        more => {
            let mut left = 510 + more;
            while left > 0 {
                let states = if g.once_in(2) { left.min(256) } else { g.between(1, left.min(256)) };
                let channel = g.below(CHANNELS);
                if usize::from(counts[channel]) + states <= 256 {
                    counts[channel] += states as u16;
                    left -= states;
                }
            }
        }
    }
    counts
}

/// Any numbers of states, any cells: 17, then 25, and what is accepted moves no other channel's rows.
#[test]
fn handed_in_arrays() {
    let mut numbers = [0; 26];
    for seed in seeds(150) {
        let mut g = Generator::new(seed);
        let set_up = g.any_set_up();
        let mut cells = Cells { counts: counts(&mut g), ..Cells::new(&set_up, WHEEL) };
        // Cells within the limits of the smallest table, at times of any table or of none.
        let states = cells.counts.iter().filter(|&&count| count > 0).min().copied().unwrap_or(1);
        let most = if g.once_in(4) { 256 } else { usize::from(states).min(256) };
        cells.entries.fill_with(|| Entry { value: g.value(&set_up), next: g.below(most) as u8 });
        if g.once_in(4) {
            let at = g.below(CELLS);
            // No number below 16, and no mask of fewer than 16 lines.
            cells.entries[at].value = if set_up.kind() == Kind::Register { 1 << 31 } else { 16 };
        }
        let number = g.below(CHANNELS);
        match g.below(8) {
            0 => cells.currents[number] = g.bits() as u8,
            1 => cells.totals[number] = g.one_of(&[1, MAX_TOTAL - 1, MAX_TOTAL, MAX_TOTAL + 1, u64::MAX]),
            2 if g.once_in(2) => cells.set_up = g.damaged_set_up_of(set_up.kind()),
            _ => {}
        }
        // A set-up with other events has its rows elsewhere; the tool has them by itself only for as many as there may be.
        if cells.set_up.events > 16 {
            cells.set_up.events = 0;
        }
        for call in g.calls_about_rows(&set_up, 12).into_iter().chain(g.calls(&set_up, 4)) {
            let answer = same(&mut cells, &call);
            numbers[answer.map_or_else(|refusal| usize::from(refusal.number), |_| 0)] += 1;
        }
    }
    assert!(numbers[0] > 300 && numbers[17] > 300 && numbers[25] > 300, "{numbers:?}");
}

/// The last rows lie behind the arrays: read as 0 they are no fault, and 25 answers.
#[test]
fn rows_behind_the_arrays() {
    let set_up = SetUp::new(RawSetUp::four_values(16)).unwrap();
    let call = Call::Event { channel: 7, event: 0, pulses: 0 };
    for (first, last, answer) in [(511, 1, Ok(2)), (512, 1, Err(25)), (65_535, 256, Err(25)), (65_535, 257, Err(17))] {
        let mut cells = Cells { counts: [first, 0, 0, 0, 0, 0, 0, last], ..Cells::new(&set_up, WHEEL) };
        cells.entries.fill(Entry { value: 2, next: 0 });
        let found = same(&mut cells, &call).map(|reading| reading.unwrap().value).map_err(|refusal| refusal.number);
        assert_eq!(found, answer, "{first} {last}");
    }
}
