//! Both versions of each call behind one signature: the proved library's and the reference's.
//!
//! A call is given a buffer with old contents and returns the answer with the buffer afterwards, so that a comparison sees every byte.

use gurvazze_reference::channel_file::{self, ChannelFile};
use gurvazze_reference::generate::RawTable;
use gurvazze_reference::table::{self as reference_table, Table};
use gurvazze_reference::trial::{trial_of_rule, trial_of_table, Grade, Outcome};
use gurvazze_reference::values::{Kind, RawNumbers, RawSetUp, RawValues};
use gurvazze_reference::{characteristic, Refusal};

/// An answer, or the refusal's number and place; and the lent buffer afterwards.
pub type Called<T> = (Result<T, (u8, Option<usize>)>, Vec<u8>);

/// States, events, values and top of a table that was made; of a register's lines for values, and no top.
pub type Numbers = (usize, usize, usize, Option<usize>);

fn plain<T>(result: Result<T, Refusal>) -> Result<T, (u8, Option<usize>)> {
    result.map_err(|refusal| (refusal.number, refusal.place))
}

fn proved<T>(result: Result<T, gurvazze::Refusal>) -> Result<T, (u8, Option<usize>)> {
    result.map_err(|refusal| (refusal.number, refusal.place))
}

/// A set-up of either kind as the library takes it.
enum Lent<'a> {
    Numbers(gurvazze::SetUp<'a>),
    Register(gurvazze::Register),
}

fn set_up(raw: &RawSetUp) -> Lent<'_> {
    let events = raw.events;
    match raw.values {
        RawValues::Numbers(RawNumbers { values, top, ref meet }) => {
            Lent::Numbers(gurvazze::SetUp { events, values, top, meet })
        }
        RawValues::Register { lines } => Lent::Register(gurvazze::Register { events, lines }),
    }
}

fn lent(table: &RawTable) -> gurvazze::Table<'_> {
    gurvazze::Table { states: table.states, start: table.start, bytes: &table.bytes }
}

/// The library's verdict in the reference's words.
fn outcome(verdict: gurvazze::Verdict) -> Outcome {
    match verdict {
        gurvazze::Verdict::Pass(gurvazze::Grade::Same) => Outcome::Passes(Grade::Same),
        gurvazze::Verdict::Pass(gurvazze::Grade::Stricter) => Outcome::Passes(Grade::Stricter),
        gurvazze::Verdict::Fail(length) => Outcome::Fails(length),
    }
}

fn compiled(kind: Kind, text: &[u8]) -> Result<(ChannelFile, Table), Refusal> {
    let file = channel_file::read_of(kind, text)?;
    let table = Table::of_rule(&file.set_up, &file.rule)?;
    Ok((file, table))
}

/// The table of a channel file's rule; the file is one for values of this kind, here and below.
pub mod table {
    use super::*;

    /// By the proved library.
    pub fn library(kind: Kind, text: &[u8], old: &[u8]) -> Called<Numbers> {
        let mut to = old.to_vec();
        let answer = match kind {
            Kind::Numbers => gurvazze::table(text, &mut to).map(|made| (made.states, made.events, made.values, Some(made.top))),
            Kind::Register => gurvazze::register_table(text, &mut to).map(|made| (made.states, made.events, made.lines, None)),
        };
        (proved(answer), to)
    }

    /// By the reference.
    pub fn reference(kind: Kind, text: &[u8], old: &[u8]) -> Called<Numbers> {
        let mut to = old.to_vec();
        let answer = compiled(kind, text).and_then(|(file, table)| {
            let states = table.write_bytes(&mut to)?;
            let (values, top) = match file.set_up.raw().values {
                RawValues::Numbers(RawNumbers { values, top, .. }) => (values, Some(top)),
                RawValues::Register { lines } => (lines, None),
            };
            Ok((states, file.set_up.events(), values, top))
        });
        (plain(answer), to)
    }
}

/// Replay of events by a channel file's rule.
pub mod replay {
    use super::*;

    /// By the proved library.
    pub fn library(kind: Kind, text: &[u8], word: &[u8], old: &[u8]) -> Called<()> {
        let mut to = old.to_vec();
        let answer = match kind {
            Kind::Numbers => gurvazze::replay(text, word, &mut to),
            Kind::Register => gurvazze::register_replay(text, word, &mut to),
        };
        (proved(answer), to)
    }

    /// By the reference.
    pub fn reference(kind: Kind, text: &[u8], word: &[u8], old: &[u8]) -> Called<()> {
        let mut to = old.to_vec();
        let answer = compiled(kind, text).and_then(|(file, table)| {
            if word.iter().any(|&event| usize::from(event) >= file.set_up.events()) {
                return Err(Refusal::new(16));
            }
            let values: Vec<u8> = table.run(0, word).0.into_iter().flat_map(|value| kind.value_to_bytes(value)).collect();
            to.get_mut(..values.len()).ok_or(Refusal::new(13))?.copy_from_slice(&values);
            Ok(())
        });
        (plain(answer), to)
    }
}

/// Trial of a device against a channel file's rule.
pub mod trial {
    use super::*;

    /// By the proved library.
    pub fn library(kind: Kind, text: &[u8], device: &RawTable, old: &[u8]) -> Called<Outcome> {
        let mut word = old.to_vec();
        let answer = match kind {
            Kind::Numbers => gurvazze::trial(text, lent(device), &mut word),
            Kind::Register => gurvazze::register_trial(text, lent(device), &mut word),
        };
        (proved(answer.map(outcome)), word)
    }

    /// By the reference.
    pub fn reference(kind: Kind, text: &[u8], device: &RawTable, old: &[u8]) -> Called<Outcome> {
        let mut word = old.to_vec();
        let answer = channel_file::read_of(kind, text)
            .and_then(|file| trial_of_rule(file.set_up.raw(), device.lent(), &file.rule.to_bytes(), &mut word));
        (plain(answer), word)
    }
}

/// The table of a rule in bytes.
pub mod compile {
    use super::*;

    /// By the proved library.
    pub fn library(raw: &RawSetUp, rule: &[u8], old: &[u8]) -> Called<usize> {
        let mut to = old.to_vec();
        let answer = match set_up(raw) {
            Lent::Numbers(set_up) => gurvazze::compile(set_up, rule, &mut to),
            Lent::Register(register) => gurvazze::register_compile(register, rule, &mut to),
        };
        (proved(answer), to)
    }

    /// By the reference.
    pub fn reference(raw: &RawSetUp, rule: &[u8], old: &[u8]) -> Called<usize> {
        let mut to = old.to_vec();
        (plain(reference_table::compile(raw, rule, &mut to)), to)
    }
}

/// Trial of a device against a rule's table.
pub mod trial_table {
    use super::*;

    /// By the proved library.
    pub fn library(raw: &RawSetUp, table: &RawTable, device: &RawTable, old: &[u8]) -> Called<Outcome> {
        let mut word = old.to_vec();
        let (states, bytes, device) = (table.states, &table.bytes, lent(device));
        let answer = match set_up(raw) {
            Lent::Numbers(set_up) => gurvazze::trial_of_table(set_up, states, bytes, device, &mut word),
            Lent::Register(register) => gurvazze::register_trial_of_table(register, states, bytes, device, &mut word),
        };
        (proved(answer.map(outcome)), word)
    }

    /// By the reference.
    pub fn reference(raw: &RawSetUp, table: &RawTable, device: &RawTable, old: &[u8]) -> Called<Outcome> {
        let mut word = old.to_vec();
        let answer = trial_of_table(raw, device.lent(), table.states, &table.bytes, &mut word);
        (plain(answer), word)
    }
}

/// Whether one channel file's rule implies another's, both of one set-up; else the failing word.
pub mod covers {
    use super::*;

    /// By the proved library: its table of the first rule, as a device from state 0, tried against the second rule.
    pub fn library(kind: Kind, first: &[u8], second: &[u8]) -> Result<Option<Vec<u8>>, (u8, Option<usize>)> {
        let (made, mut bytes) = table::library(kind, first, &[0; gurvazze::REGISTER_TABLE_BYTES]);
        let (states, events, _, _) = made?;
        bytes.truncate(states * events * kind.entry_bytes());
        let device = RawTable { states, start: 0, bytes };
        let (answer, mut word) = trial::library(kind, second, &device, &[0; gurvazze::WORD_BYTES]);
        Ok(match answer? {
            Outcome::Passes(_) => None,
            Outcome::Fails(length) => {
                word.truncate(length);
                Some(word)
            }
        })
    }

    /// By the reference.
    pub fn reference(kind: Kind, first: &[u8], second: &[u8]) -> Result<Option<Vec<u8>>, (u8, Option<usize>)> {
        let answer = channel_file::read_of(kind, first).and_then(|first| {
            let second = channel_file::lines_of(kind, second)?.rule;
            gurvazze_reference::trial::covers(first.set_up.raw(), &first.rule.to_bytes(), &second)
        });
        plain(answer)
    }
}

/// The rule of a table.
pub mod rule {
    use super::*;

    /// By the proved library.
    pub fn library(raw: &RawSetUp, table: &RawTable, old: &[u8]) -> Called<usize> {
        let mut to = old.to_vec();
        let answer = match set_up(raw) {
            Lent::Numbers(set_up) => gurvazze::rule(set_up, lent(table), &mut to),
            Lent::Register(register) => gurvazze::register_rule(register, lent(table), &mut to),
        };
        (proved(answer), to)
    }

    /// By the reference.
    pub fn reference(raw: &RawSetUp, table: &RawTable, old: &[u8]) -> Called<usize> {
        let mut to = old.to_vec();
        (plain(characteristic::write_rule(raw, table.lent(), &mut to)), to)
    }
}
