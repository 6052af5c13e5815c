//! The tool: eight channels that follow their rules' tables and tell distances, refusals 14 to 19 and 25; and the log it is compared with.

mod distance;
mod log;

pub use distance::{Distance, Reading, Wheel, MAX_PER_TURN, MAX_TOTAL};
pub use log::{Log, Record};

use crate::formula::Rule;
use crate::table::{within_limits, Entry, Table};
use crate::values::{RawSetUp, SetUp};
use crate::Refusal;

/// "eight channels, 0 to 7".
pub const CHANNELS: usize = 8;
/// "512 rows among its channels, a row being one state of a loaded table" (document 02, F-12).
pub const MAX_ROWS: usize = 512;

/// "a channel is empty or has a table and a current state", and the total of its pulses "since its loading or restart" (document 02,
/// F-6). It is empty when its number of states is 0, whatever else it holds.
#[derive(Clone, Debug, Default, PartialEq, Eq)]
pub struct Channel {
    /// How many states its table has, 0 for an empty channel.
    pub states: usize,
    /// The current state.
    pub current: usize,
    /// The entries of its table, by state, then event.
    pub entries: Vec<Entry>,
    /// The total of its pulses.
    pub total: u64,
}

impl Channel {
    /// Whether the channel is empty.
    pub fn is_empty(&self) -> bool {
        self.states == 0
    }

    /// State 0, and no pulses.
    fn restart(&mut self) {
        self.current = 0;
        self.total = 0;
    }
}

/// "A tool holds one set-up and eight channels", and the set-up's wheel (document 02, F-6). Plain data: who holds it may spoil it, and
/// each call looks (17).
#[derive(Clone, Debug, PartialEq, Eq)]
pub struct Tool {
    /// The set-up.
    pub set_up: RawSetUp,
    /// The wheel.
    pub wheel: Wheel,
    /// The channels.
    pub channels: [Channel; CHANNELS],
}

/// One of the five calls on a tool, with its inputs beside the tool.
#[derive(Clone, Debug, PartialEq, Eq)]
pub enum Call {
    /// Load a rule.
    Load {
        /// The channel.
        channel: usize,
        /// The rule in bytes.
        rule: Vec<u8>,
    },
    /// Event.
    Event {
        /// The channel.
        channel: usize,
        /// The event.
        event: usize,
        /// "the pulses since that channel's last accepted event, 0 to 4,294,967,295" (document 02, F-6).
        pulses: u32,
    },
    /// Restart one.
    RestartOne {
        /// The channel.
        channel: usize,
    },
    /// Restart all.
    RestartAll,
    /// Clear.
    Clear {
        /// The channel.
        channel: usize,
    },
}

impl Call {
    /// The channel that the call names; "restart all names none".
    pub fn channel(&self) -> Option<usize> {
        match *self {
            Call::Load { channel, .. }
            | Call::Event { channel, .. }
            | Call::RestartOne { channel }
            | Call::Clear { channel } => Some(channel),
            Call::RestartAll => None,
        }
    }
}

/// What a call returns: a reading for an accepted event, nothing for other accepted calls.
pub type Answer = Result<Option<Reading>, Refusal>;

impl Tool {
    /// "set up (takes no earlier tool; all empty)": refusals 1 to 3, 18; for a register 1, 20, 18.
    pub fn new(set_up: RawSetUp, wheel: Wheel) -> Result<Tool, Refusal> {
        set_up.check()?;
        wheel.check()?;
        Ok(Tool { set_up, wheel, channels: Default::default() })
    }

    /// "load a rule (replaces, state 0)": refusals 17, 25, 14, 5 to 8, 23, 9, 10, 25. "a refused loading changes neither its channel nor
    /// any other".
    pub fn load(&mut self, channel: usize, rule: &[u8]) -> Result<(), Refusal> {
        self.check_named(channel)?;
        check_channel(channel)?;
        let set_up = SetUp::new(self.set_up.clone()).expect("17 has tested it");
        let table = Table::of_rule(&set_up, &Rule::from_bytes(&set_up, rule)?)?;
        // 25: "rows of the other channels plus those of the new table above 512, after 10 on loading" (document 02, F-12).
        let others = (0..CHANNELS).filter(|&other| other != channel).map(|other| self.channels[other].states);
        check_rows(others.chain([table.states()]))?;
        self.channels[channel] = Channel { states: table.states(), current: 0, entries: table.into_entries(), total: 0 };
        Ok(())
    }

    /// "An event returns the value and moves to the next state": refusals 17, 25, 14, 15, 16, 19. "The call also returns, this event's
    /// pulses counted in", the distance (document 02, F-6).
    pub fn event(&mut self, channel: usize, event: usize, pulses: u32) -> Result<Reading, Refusal> {
        self.check_named(channel)?;
        self.sound_event(channel, event, pulses)
    }

    /// The same for a tool that 17 and 25 are known not to refuse.
    pub fn sound_event(&mut self, channel: usize, event: usize, pulses: u32) -> Result<Reading, Refusal> {
        let (events, wheel) = (self.set_up.events, self.wheel);
        let channel = self.loaded(channel)?;
        // 16: "event too large".
        if event >= events {
            return Err(Refusal::new(16));
        }
        // 19: "a total above 1,099,511,627,776".
        let total = channel.total + u64::from(pulses);
        if total > MAX_TOTAL {
            return Err(Refusal::new(19));
        }
        let Entry { value, next } = channel.entries[channel.current * events + event];
        channel.current = usize::from(next);
        channel.total = total;
        Ok(Reading { value, distance: wheel.distance(total) })
    }

    /// Restart one: refusals 17, 25, 14, 15.
    pub fn restart_one(&mut self, channel: usize) -> Result<(), Refusal> {
        self.check_named(channel)?;
        self.loaded(channel)?.restart();
        Ok(())
    }

    /// "restart all (empty ones remain empty)": refusals 17, 25.
    pub fn restart_all(&mut self) -> Result<(), Refusal> {
        self.check_set_up()?;
        // 17: "for restart all, any loaded one".
        self.channels.iter().try_for_each(|channel| self.check_loaded(channel))?;
        self.check_all_rows()?;
        self.channels.iter_mut().filter(|channel| !channel.is_empty()).for_each(Channel::restart);
        Ok(())
    }

    /// "clear (an empty one too)": refusals 17, 25, 14.
    pub fn clear(&mut self, channel: usize) -> Result<(), Refusal> {
        self.check_named(channel)?;
        check_channel(channel)?;
        self.channels[channel] = Channel::default();
        Ok(())
    }

    /// Any of the five calls.
    pub fn call(&mut self, call: &Call) -> Answer {
        match *call {
            Call::Load { channel, ref rule } => self.load(channel, rule).map(|()| None),
            Call::Event { channel, event, pulses } => self.event(channel, event, pulses).map(Some),
            Call::RestartOne { channel } => self.restart_one(channel).map(|()| None),
            Call::RestartAll => self.restart_all().map(|()| None),
            Call::Clear { channel } => self.clear(channel).map(|()| None),
        }
    }

    /// 17: "a tool whose set-up fails 1 to 3, or whose named channel ... has a table failing 11's limits or a current state
    /// outside it". A number above 7 names no channel of the tool. Then 25.
    fn check_named(&self, channel: usize) -> Result<(), Refusal> {
        self.check_set_up()?;
        self.channels.get(channel).map_or(Ok(()), |channel| self.check_loaded(channel))?;
        self.check_all_rows()
    }

    /// 25: "for a handed-in tool whose loaded tables exceed 512, after 17" (document 02, F-12).
    fn check_all_rows(&self) -> Result<(), Refusal> {
        check_rows(self.channels.iter().map(|channel| channel.states))
    }

    /// 18 is "also part of 17's test" (document 02, F-6), and so is 20 (F-7).
    fn check_set_up(&self) -> Result<(), Refusal> {
        self.set_up.check().and_then(|()| self.wheel.check()).map_err(|_| Refusal::new(17))
    }

    /// "a loaded channel already holding such a total counts in 17 as one with a bad table does" (document 02, F-6). An empty channel's
    /// total is not looked at.
    fn check_loaded(&self, channel: &Channel) -> Result<(), Refusal> {
        let sound = channel.is_empty()
            || within_limits(&self.set_up, channel.states, &channel.entries)
                && channel.current < channel.states
                && channel.total <= MAX_TOTAL;
        if sound {
            Ok(())
        } else {
            Err(Refusal::new(17))
        }
    }

    /// A loaded channel: refusals 14 and 15, "channel empty, on event or restart one".
    fn loaded(&mut self, channel: usize) -> Result<&mut Channel, Refusal> {
        check_channel(channel)?;
        let channel = &mut self.channels[channel];
        if channel.is_empty() {
            return Err(Refusal::new(15));
        }
        Ok(channel)
    }
}

/// 25: so many rows are above 512 together; an empty channel has none.
fn check_rows(mut rows: impl Iterator<Item = usize>) -> Result<(), Refusal> {
    match rows.try_fold(MAX_ROWS, usize::checked_sub) {
        Some(_) => Ok(()),
        None => Err(Refusal::new(25)),
    }
}

/// 14: "channel above 7".
fn check_channel(channel: usize) -> Result<(), Refusal> {
    if channel >= CHANNELS {
        return Err(Refusal::new(14));
    }
    Ok(())
}
