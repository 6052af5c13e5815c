//! How often each answer of each command arose.

use std::collections::BTreeMap;

use crate::session::Answer;

/// Fewer answers of a kind than this say little.
const ENOUGH: usize = 20;

/// Every answer that each command can have.
const EXPECTED: [(&str, &str); 39] = [
    ("setup", "ok refused=1 refused=2 refused=3 refused=18 error=arguments error=number"),
    ("register", "ok refused=1 refused=20 refused=18 error=arguments error=number"),
    ("wheel", "ok error=arguments error=number"),
    ("table", "states refused=5 refused=6 refused=7 refused=8 refused=23 refused=9 refused=10 error=setup error=tokens"),
    ("dot", "digraph refused=5 refused=6 refused=7 refused=8 refused=23 refused=9 refused=10 error=setup error=tokens"),
    ("load", "states refused=5 refused=6 refused=7 refused=8 refused=23 refused=9 refused=10 refused=25 refused=14"),
    ("load", "error=setup error=arguments error=number error=tokens"),
    ("event", "value mm refused=14 refused=15 refused=16 refused=19 error=setup error=arguments error=number"),
    ("events", "values refused=14 refused=15 refused=16 error=setup error=arguments error=number"),
    ("restart", "ok refused=14 refused=15 error=setup error=arguments error=number"),
    ("restart all", "ok error=setup"),
    ("clear", "ok refused=14 error=setup error=arguments error=number"),
    ("show", "empty states refused=14 error=setup error=arguments error=number"),
    ("device", "ok error=arguments error=number"),
    (
        "trial",
        "pass=same pass=stricter fail refused=5 refused=6 refused=7 refused=8 refused=23 refused=9 refused=10 refused=11",
    ),
    ("trial", "error=setup error=device error=tokens"),
    ("covers", "yes no refused=5 refused=6 refused=7 refused=8 refused=23 refused=9 refused=10 refused=11"),
    ("covers", "error=setup error=tokens"),
    ("write", "rule refused=11 refused=12 refused=23 error=setup error=arguments error=device"),
    ("help", "help"),
    ("unknown", "error=command"),
    ("line", "error=line skipped"),
    // Set-ups that were accepted.
    ("set-up of", "16-events 16-values 1-pulse 65535-pulses 1-millimetre 65535-millimetres"),
    ("set-up of", "16-events-of-register 1-line 16-lines"),
    // Set-ups with a wheel out of range: 1 to 3, or 1 and 20, come before 18.
    ("bad wheel at", "refused=1 refused=2 refused=3 refused=18"),
    ("bad wheel at register", "refused=1 refused=20 refused=18"),
    // Events with more pulses than the channel has room for: 16 comes before 19.
    ("no room at", "refused=16 refused=19"),
    // Distances that are whole millimetres, and those that are not.
    ("distance", "whole remainder"),
    // Totals of loaded channels.
    ("total", "none some most"),
    // Rules that were accepted though document 01 alone refuses them.
    ("inner binder in", "table dot load trial covers"),
    // Rules that were accepted, or written, with as many binders on a path as it may have.
    ("twelve binders in", "table dot load trial covers write"),
    // Rules that were accepted, and devices that were written, with more states than document 01 alone has.
    ("over 64 states in", "load trial covers write"),
    // Those of as many states as there may be.
    ("256 states in", "load trial covers write"),
    // Accepted loads and clears in a channel that was loaded and has a loaded one behind it; loads after which there is no room left, and
    // those that have room only where the old rows were.
    ("store", "grows shrinks closes full reuses"),
    // Loads that 25 refuses, in a loaded channel and in an empty one.
    ("no rows for", "loaded empty"),
    // Devices of a register that are kept and are 11 where they are used.
    ("register's device", "mask-too-large next-too-large ends-behind-value"),
    // What becomes of a device at a set-up that is accepted.
    ("device kept by", "setup register"),
    ("device dropped by", "setup register"),
    // Tokens that would be in the form of the other kind.
    ("O of the other kind", "register's number's"),
];

/// Answers that are long, so that there are few of them.
const LONG: [(&str, &str); 2] = [("over 64 states in", "table dot"), ("256 states in", "table dot")];

/// So few of them are enough.
const ENOUGH_LONG: usize = 2;

/// Answers with a register's set-up in force.
const WITH_REGISTER: [(&str, &str); 11] = [
    ("table with register", "states refused=5 refused=6 refused=7 refused=8 refused=23 refused=9 refused=10 error=tokens"),
    ("dot with register", "digraph refused=5 refused=6 refused=7 refused=8 refused=23 refused=9 refused=10 error=tokens"),
    ("load with register", "states refused=5 refused=6 refused=7 refused=8 refused=23 refused=9 refused=10 refused=25"),
    ("load with register", "refused=14 error=tokens"),
    ("event with register", "value mm refused=14 refused=15 refused=16 refused=19"),
    ("events with register", "values refused=14 refused=15 refused=16"),
    ("show with register", "empty states"),
    ("device with register", "ok error=number"),
    ("trial with register", "pass=same pass=stricter fail refused=6 refused=10 refused=11 error=device error=tokens"),
    ("covers with register", "yes no refused=6 refused=10 refused=11 error=tokens"),
    ("write with register", "rule refused=11 refused=12 refused=23 error=device"),
];

/// So many of them are enough.
const ENOUGH_WITH_REGISTER: usize = 5;

/// Counts by command and kind of answer.
#[derive(Default)]
pub struct Tally(BTreeMap<(&'static str, String), usize>);

impl Tally {
    /// Counts an answer.
    pub fn answer(&mut self, answer: &Answer) {
        self.count(answer.command, &kind(answer));
    }

    /// Counts an answer to a command with a register's set-up in force.
    pub fn answer_with_register(&mut self, answer: &Answer) {
        let command = match answer.command {
            "table" => "table with register",
            "dot" => "dot with register",
            "load" => "load with register",
            "event" => "event with register",
            "events" => "events with register",
            "show" => "show with register",
            "device" => "device with register",
            "trial" => "trial with register",
            "covers" => "covers with register",
            "write" => "write with register",
            _ => "other with register",
        };
        self.count(command, &kind(answer));
    }

    /// Counts something else.
    pub fn count(&mut self, command: &'static str, kind: &str) {
        *self.0.entry((command, kind.to_string())).or_default() += 1;
    }

    /// What hardly arose, though it should.
    pub fn missing(&self) -> Vec<String> {
        let each = |these: &'static [(&str, &str)], enough: usize| {
            these.iter().flat_map(move |&(command, kinds)| kinds.split(' ').map(move |kind| (command, kind, enough)))
        };
        each(&EXPECTED, ENOUGH)
            .chain(each(&LONG, ENOUGH_LONG))
            .chain(each(&WITH_REGISTER, ENOUGH_WITH_REGISTER))
            .filter(|&(command, kind, enough)| self.0.get(&(command, kind.to_string())).is_none_or(|&count| count < enough))
            .map(|(command, kind, _)| format!("{command} {kind}"))
            .collect()
    }

    /// A line for each command.
    pub fn lines(&self) -> String {
        let mut lines = BTreeMap::<&str, String>::new();
        for ((command, kind), count) in &self.0 {
            *lines.entry(command).or_default() += &format!(" {kind}:{count}");
        }
        lines.iter().map(|(command, counts)| format!("{command}{counts}\n")).collect()
    }
}

/// `pass=`, `refused=` and `error=` with what follows, up to a place; `mm` of an event with its distance; of other answers the first word
/// or key.
fn kind(answer: &Answer) -> String {
    if answer.command == "help" {
        return "help".to_string();
    }
    if answer.text.contains(" mm=") {
        return "mm".to_string();
    }
    let is_told_apart = ["pass=", "refused=", "error="].iter().any(|key| answer.text.starts_with(key));
    let ends: &[char] = if is_told_apart { &[' ', '\n'] } else { &[' ', '\n', '='] };
    let end = answer.text.find(ends).expect("an answer ends a line");
    answer.text[..end].to_string()
}
