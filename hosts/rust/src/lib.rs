//! Channel rule tables by the proved library: the table of a channel file's rule or of a rule in bytes, replay, trial, and the rule of a
//! table. Values are numbers with a meet table; every function is there a second time for a register's values.
//!
//! In bytes a node of a rule is its kind (0 T, 1 X, 2 G, 3 O, 4 A, 5 V), a first number, and the value of an O node; an entry of a table is a
//! value and a next state. A number as value is one byte, so that a node has three bytes and an entry two. A register's value is four bytes,
//! [`Masks`], so that a node has six and an entry five. What a node does not use is 0.
//!
//! Every function lends its slices for the time of the call. A refused call leaves them as they were, and what lies behind an
//! output keeps its contents.

use std::fmt;

/// The bytes that a trial's word buffer has at least.
pub const WORD_BYTES: usize = 16_384;

/// The bytes that every table has room in: 256 states, 16 events, two bytes an entry.
pub const TABLE_BYTES: usize = 8192;

/// The bytes that every rule has room in: 256 nodes, three bytes each.
pub const RULE_BYTES: usize = 768;

/// The bytes that every table of a register has room in: 256 states, 16 events, five bytes an entry.
pub const REGISTER_TABLE_BYTES: usize = 20_480;

/// The bytes that every rule of a register has room in: 256 nodes, six bytes each.
pub const REGISTER_RULE_BYTES: usize = 1536;

/// A refusal of the lists of documents 01 and 02.
#[derive(Clone, Copy, Debug, PartialEq, Eq, Hash)]
pub struct Refusal {
    /// Its number.
    pub number: u8,
    /// Its place: a byte offset for 4, a node number for 6 to 9, nothing for the others.
    pub place: Option<usize>,
}

impl fmt::Display for Refusal {
    fn fmt(&self, f: &mut fmt::Formatter<'_>) -> fmt::Result {
        match self.place {
            Some(place) => write!(f, "refused: {} at {}", self.number, place),
            None => write!(f, "refused: {}", self.number),
        }
    }
}

impl std::error::Error for Refusal {}

/// The numbers of a table that was made.
#[derive(Clone, Copy, Debug, PartialEq, Eq)]
pub struct TableNumbers {
    /// How many states; the table has `states * events` entries of two bytes.
    pub states: usize,
    /// How many events.
    pub events: usize,
    /// How many values.
    pub values: usize,
    /// The top value.
    pub top: usize,
}

/// The numbers of a register's table that was made.
#[derive(Clone, Copy, Debug, PartialEq, Eq)]
pub struct RegisterTableNumbers {
    /// How many states; the table has `states * events` entries of five bytes.
    pub states: usize,
    /// How many events.
    pub events: usize,
    /// How many lines.
    pub lines: usize,
}

/// How a device passes.
#[derive(Clone, Copy, Debug, PartialEq, Eq, Hash)]
pub enum Grade {
    /// Every event sequence ends in equal values.
    Same,
    /// Some event sequence ends in a value strictly below the rule's.
    Stricter,
}

/// The answer of a trial.
#[derive(Clone, Copy, Debug, PartialEq, Eq)]
pub enum Verdict {
    /// The device does what the rule asks. The word buffer keeps its contents.
    Pass(Grade),
    /// It does not. The word that shows it is that long and stands at the front of the word buffer; it is the first: the shortest, and
    /// among those the one with the smaller event at the first difference. Word and length are fixed by the two tables.
    Fail(usize),
}

/// A set-up: its numbers and its meet table, row by row.
#[derive(Clone, Copy, Debug)]
pub struct SetUp<'a> {
    /// How many events.
    pub events: usize,
    /// How many values.
    pub values: usize,
    /// The top value.
    pub top: usize,
    /// The meet table.
    pub meet: &'a [u8],
}

/// The set-up of a register.
#[derive(Clone, Copy, Debug, PartialEq, Eq)]
pub struct Register {
    /// How many events.
    pub events: usize,
    /// How many lines: 1 to 16. Refusal 20 is given where it is not.
    pub lines: usize,
}

/// A value of a register: the lines that may be low and those that may be high, bit 0 for line 0. A line is open where it is in both masks
/// and in conflict where it is in none. A bit at or above the line count is refusal 6 in a rule and 11 in a table.
///
/// ```
/// use gurvazze::Masks;
///
/// let value = Masks { low: 0x0102, high: 0xff03 };
/// assert_eq!(value.to_bytes(), [0x02, 0x01, 0x03, 0xff]);
/// assert_eq!(Masks::from_bytes(value.to_bytes()), value);
/// assert_eq!(Masks { low: 1, high: 2 }.node(5), [3, 5, 1, 0, 2, 0]);
/// assert_eq!(Masks { low: 1, high: 2 }.entry(7), [1, 0, 2, 0, 7]);
/// ```
#[derive(Clone, Copy, Debug, PartialEq, Eq, Hash)]
pub struct Masks {
    /// The lines that may be low.
    pub low: u16,
    /// The lines that may be high.
    pub high: u16,
}

impl Masks {
    /// The value in bytes: the low mask, then the high mask, each mask's low byte first.
    pub const fn to_bytes(self) -> [u8; 4] {
        let ([a, b], [c, d]) = (self.low.to_le_bytes(), self.high.to_le_bytes());
        [a, b, c, d]
    }

    /// The value in these bytes.
    pub const fn from_bytes([a, b, c, d]: [u8; 4]) -> Masks {
        Masks { low: u16::from_le_bytes([a, b]), high: u16::from_le_bytes([c, d]) }
    }

    /// The O node that asks for this value on an event.
    pub const fn node(self, event: u8) -> [u8; 6] {
        let [a, b, c, d] = self.to_bytes();
        [3, event, a, b, c, d]
    }

    /// The entry of a table with this value and a next state.
    pub const fn entry(self, next: u8) -> [u8; 5] {
        let [a, b, c, d] = self.to_bytes();
        [a, b, c, d, next]
    }
}

/// A table handed in: value and next state by state and then event; the value is one byte, or a register's four, [`Masks`].
#[derive(Clone, Copy, Debug)]
pub struct Table<'a> {
    /// How many states: 1 to 64 of a trial's device, 1 to 256 of any other table. Refusal 11 is given where it is not.
    pub states: usize,
    /// The start; a rule's table starts at state 0.
    pub start: usize,
    /// The entries.
    pub bytes: &'a [u8],
}

/// The table of a channel file's rule goes into `to`. Refusals 4, 1 to 3, 5 to 8, 23, 9, 10, 13.
///
/// ```
/// let file = b"events=2\nvalues=4\ntop=3\nmeet=0 0 0 0 0 1 0 1 0 0 2 2 0 1 2 3\nrule=A O1.1 V G1 X0\n";
/// let mut to = [0; gurvazze::TABLE_BYTES];
/// let numbers = gurvazze::table(file, &mut to)?;
/// assert_eq!((numbers.states, numbers.events), (3, 2));
/// assert_eq!(to[..12], [3, 1, 1, 2, 3, 1, 3, 1, 3, 1, 3, 2]);
///
/// let refusal = gurvazze::table(b"events=2\r\n", &mut to).unwrap_err();
/// assert_eq!((refusal.number, refusal.place), (4, Some(8)));
/// # Ok::<(), gurvazze::Refusal>(())
/// ```
///
/// A variable is in order when a G lies between it and its own binder, also under an inner binder. Refusal 9 is given only where none
/// does.
///
/// ```
/// let file = b"events=2\nvalues=4\ntop=3\nmeet=0 0 0 0 0 1 0 1 0 0 2 2 0 1 2 3\nrule=V G0 V A X1 G0 X0\n";
/// let mut to = [0; gurvazze::TABLE_BYTES];
/// assert_eq!(gurvazze::table(file, &mut to)?.states, 3);
/// assert_eq!(to[..12], [3, 1, 3, 2, 3, 1, 3, 2, 3, 2, 3, 2]);
///
/// let file = b"events=2\nvalues=4\ntop=3\nmeet=0 0 0 0 0 1 0 1 0 0 2 2 0 1 2 3\nrule=V G0 V X0\n";
/// let refusal = gurvazze::table(file, &mut to).unwrap_err();
/// assert_eq!((refusal.number, refusal.place), (9, Some(3)));
/// # Ok::<(), gurvazze::Refusal>(())
/// ```
///
/// A path from the root has at most twelve V nodes. Refusal 23, which has no place, is given where one has more.
///
/// ```
/// let head = "events=2\nvalues=4\ntop=3\nmeet=0 0 0 0 0 1 0 1 0 0 2 2 0 1 2 3\n";
/// let binders = |count: usize| format!("{head}rule=A T {}T\n", "V ".repeat(count)).into_bytes();
/// let mut to = [0; gurvazze::TABLE_BYTES];
/// assert_eq!(gurvazze::table(&binders(12), &mut to)?.states, 1);
/// let refusal = gurvazze::table(&binders(13), &mut to).unwrap_err();
/// assert_eq!((refusal.number, refusal.place), (23, None));
/// # Ok::<(), gurvazze::Refusal>(())
/// ```
///
/// A table has at most 256 states. Refusal 10 is given where a rule reaches more.
///
/// ```
/// let head = "events=1\nvalues=4\ntop=3\nmeet=0 0 0 0 0 1 0 1 0 0 2 2 0 1 2 3\n";
/// let steps = |count: usize| format!("{head}rule={}T\n", "G0 ".repeat(count)).into_bytes();
/// let mut to = [0; gurvazze::TABLE_BYTES];
/// assert_eq!(gurvazze::table(&steps(64), &mut to)?.states, 65);
/// assert_eq!(gurvazze::table(&steps(255), &mut to)?.states, 256);
/// // State 254 goes to 255, which stays.
/// assert_eq!(to[508..512], [3, 255, 3, 255]);
/// // Loops of 16 and 17 have 272 states together.
/// let loops = format!("{head}rule=A V {}X0 V {}X0\n", "G0 ".repeat(16), "G0 ".repeat(17)).into_bytes();
/// let refusal = gurvazze::table(&loops, &mut to).unwrap_err();
/// assert_eq!((refusal.number, refusal.place), (10, None));
/// # Ok::<(), gurvazze::Refusal>(())
/// ```
pub fn table(text: &[u8], to: &mut [u8]) -> Result<TableNumbers, Refusal> {
    // SAFETY: both slices are valid for the call, and a slice that is lent mutably overlaps no other.
    let code = unsafe { library::gurvazze_table(text.as_ptr(), text.len(), to.as_mut_ptr(), to.len()) };
    numbers(code)
}

/// The table of a register's channel file's rule goes into `to`, five bytes an entry. Refusals 4, 1, 20, 5 to 8, 23, 9, 10, 13.
///
/// Such a file has the lines `events`, `lines` and `rule`; an O token is event.low.high, the masks of the lines that may be low and may be
/// high.
///
/// ```
/// use gurvazze::Masks;
///
/// let file = b"events=2\nlines=9\nrule=A O1.511.255 V G1 X0\n";
/// let (low, top) = (Masks { low: 0x1ff, high: 0xff }, Masks { low: 0x1ff, high: 0x1ff });
/// let mut to = [0; gurvazze::REGISTER_TABLE_BYTES];
/// let numbers = gurvazze::register_table(file, &mut to)?;
/// assert_eq!((numbers.states, numbers.events, numbers.lines), (3, 2, 9));
/// let rows = [top.entry(1), low.entry(2), top.entry(1), top.entry(1), top.entry(1), top.entry(2)];
/// assert_eq!(to[..30], rows.concat());
///
/// // Line 8 is one too many for eight lines, and a file has at most 16.
/// let refusal = gurvazze::register_table(b"events=2\nlines=8\nrule=A O1.511.255 V G1 X0\n", &mut to).unwrap_err();
/// assert_eq!((refusal.number, refusal.place), (6, Some(1)));
/// let refusal = gurvazze::register_table(b"events=2\nlines=17\nrule=T\n", &mut to).unwrap_err();
/// assert_eq!((refusal.number, refusal.place), (20, None));
/// # Ok::<(), gurvazze::Refusal>(())
/// ```
pub fn register_table(text: &[u8], to: &mut [u8]) -> Result<RegisterTableNumbers, Refusal> {
    // SAFETY: as in `table`.
    let code = unsafe { library::gurvazze_register_table(text.as_ptr(), text.len(), to.as_mut_ptr(), to.len()) };
    // The lines stand in the place of values, and 0 in that of top.
    numbers(code).map(|TableNumbers { states, events, values, .. }| RegisterTableNumbers { states, events, lines: values })
}

/// The values of a channel file's rule on a sequence of events go into `to`, one byte for each event. Refusals 4, 1 to 3,
/// 5 to 8, 23, 9, 10, 16, 13.
///
/// ```
/// let file = b"events=2\nvalues=4\ntop=3\nmeet=0 0 0 0 0 1 0 1 0 0 2 2 0 1 2 3\nrule=V A G1 O1.1 G1 X0\n";
/// let mut values = [0; 4];
/// gurvazze::replay(file, &[1, 1, 1, 1], &mut values)?;
/// assert_eq!(values, [3, 1, 1, 1]);
/// assert_eq!(gurvazze::replay(file, &[2], &mut values).unwrap_err().number, 16);
/// # Ok::<(), gurvazze::Refusal>(())
/// ```
pub fn replay(text: &[u8], events: &[u8], to: &mut [u8]) -> Result<(), Refusal> {
    // SAFETY: as in `table`.
    let code = unsafe {
        library::gurvazze_replay(text.as_ptr(), text.len(), events.as_ptr(), events.len(), to.as_mut_ptr(), to.len())
    };
    yielded(code).map(|_| ())
}

/// The values of a register's channel file's rule on a sequence of events go into `to`, four bytes for each event, [`Masks::to_bytes`].
/// Refusals 4, 1, 20, 5 to 8, 23, 9, 10, 16, 13; 13 where `to` has fewer than four bytes for each event.
///
/// ```
/// use gurvazze::Masks;
///
/// let file = b"events=2\nlines=9\nrule=V A G1 O1.511.255 G1 X0\n";
/// let (low, top) = (Masks { low: 0x1ff, high: 0xff }, Masks { low: 0x1ff, high: 0x1ff });
/// let mut values = [0; 12];
/// gurvazze::register_replay(file, &[1, 1, 0], &mut values)?;
/// assert_eq!(values, [top.to_bytes(), low.to_bytes(), top.to_bytes()].concat()[..]);
/// assert_eq!(gurvazze::register_replay(file, &[2], &mut values).unwrap_err().number, 16);
/// assert_eq!(gurvazze::register_replay(file, &[0; 3], &mut values[1..]).unwrap_err().number, 13);
/// # Ok::<(), gurvazze::Refusal>(())
/// ```
pub fn register_replay(text: &[u8], events: &[u8], to: &mut [u8]) -> Result<(), Refusal> {
    // SAFETY: as in `table`.
    let code = unsafe {
        library::gurvazze_register_replay(text.as_ptr(), text.len(), events.as_ptr(), events.len(), to.as_mut_ptr(), to.len())
    };
    yielded(code).map(|_| ())
}

/// Trial of a device against a channel file's rule. Refusals 4, 1 to 3, 5 to 8, 23, 9, 10, 11, 13.
///
/// ```
/// use gurvazze::{Grade, Table, Verdict};
///
/// let file = b"events=2\nvalues=4\ntop=3\nmeet=0 0 0 0 0 1 0 1 0 0 2 2 0 1 2 3\nrule=A O0.1 O0.2\n";
/// let mut word = [0; gurvazze::WORD_BYTES];
/// let open = Table { states: 1, start: 0, bytes: &[3, 0, 3, 0] };
/// assert_eq!(gurvazze::trial(file, open, &mut word)?, Verdict::Fail(1));
/// assert_eq!(word[0], 0);
/// let late = b"events=2\nvalues=4\ntop=3\nmeet=0 0 0 0 0 1 0 1 0 0 2 2 0 1 2 3\nrule=A G0 O1.1 G1 O0.1\n";
/// assert_eq!(gurvazze::trial(late, open, &mut word)?, Verdict::Fail(2));
/// assert_eq!(word[..2], [0, 1]);
/// let conflict = Table { states: 1, start: 0, bytes: &[0, 0, 0, 0] };
/// assert_eq!(gurvazze::trial(file, conflict, &mut word)?, Verdict::Pass(Grade::Stricter));
/// let conflict_once = Table { states: 2, start: 0, bytes: &[0, 1, 3, 1, 3, 1, 3, 1] };
/// assert_eq!(gurvazze::trial(file, conflict_once, &mut word)?, Verdict::Pass(Grade::Same));
/// # Ok::<(), gurvazze::Refusal>(())
/// ```
///
/// A rule whose table has at most 64 states covers another of the same set-up, so that the other may be dropped, exactly if its table, as a
/// device from state 0, passes.
///
/// ```
/// use gurvazze::{Grade, Table, Verdict};
///
/// let always = b"events=2\nvalues=4\ntop=3\nmeet=0 0 0 0 0 1 0 1 0 0 2 2 0 1 2 3\nrule=V A O0.1 G0 X0\n";
/// let twice = b"events=2\nvalues=4\ntop=3\nmeet=0 0 0 0 0 1 0 1 0 0 2 2 0 1 2 3\nrule=A O0.1 G0 O0.1\n";
/// let (mut table, mut word) = ([0; gurvazze::TABLE_BYTES], [0; gurvazze::WORD_BYTES]);
/// let of = gurvazze::table(always, &mut table)?;
/// let device = Table { states: of.states, start: 0, bytes: &table[..of.states * of.events * 2] };
/// assert_eq!(gurvazze::trial(twice, device, &mut word)?, Verdict::Pass(Grade::Stricter));
/// let of = gurvazze::table(twice, &mut table)?;
/// let device = Table { states: of.states, start: 0, bytes: &table[..of.states * of.events * 2] };
/// assert_eq!(gurvazze::trial(always, device, &mut word)?, Verdict::Fail(3));
/// assert_eq!(word[..3], [0, 0, 0]);
/// # Ok::<(), gurvazze::Refusal>(())
/// ```
pub fn trial(text: &[u8], device: Table<'_>, word: &mut [u8]) -> Result<Verdict, Refusal> {
    // SAFETY: as in `table`.
    let code = unsafe {
        library::gurvazze_trial(
            text.as_ptr(),
            text.len(),
            device.states,
            device.start,
            device.bytes.as_ptr(),
            device.bytes.len(),
            word.as_mut_ptr(),
            word.len(),
        )
    };
    verdict(code)
}

/// Trial of a register's device, five bytes an entry, against a register's channel file's rule. Refusals 4, 1, 20, 5 to 8, 23, 9, 10, 11, 13.
/// A rule covers another by it as by [`trial`].
///
/// ```
/// use gurvazze::{Grade, Masks, Table, Verdict};
///
/// let file = b"events=1\nlines=2\nrule=G0 O0.3.0\n";
/// let (low, open) = (Masks { low: 3, high: 0 }, Masks { low: 3, high: 3 });
/// let mut word = [0; gurvazze::WORD_BYTES];
/// let device = Table { states: 1, start: 0, bytes: &open.entry(0) };
/// assert_eq!(gurvazze::register_trial(file, device, &mut word)?, Verdict::Fail(2));
/// assert_eq!(word[..2], [0, 0]);
/// let device = Table { states: 1, start: 0, bytes: &low.entry(0) };
/// assert_eq!(gurvazze::register_trial(file, device, &mut word)?, Verdict::Pass(Grade::Stricter));
/// let second_low = [open.entry(1), low.entry(2), open.entry(2)].concat();
/// let device = Table { states: 3, start: 0, bytes: &second_low };
/// assert_eq!(gurvazze::register_trial(file, device, &mut word)?, Verdict::Pass(Grade::Same));
/// # Ok::<(), gurvazze::Refusal>(())
/// ```
pub fn register_trial(text: &[u8], device: Table<'_>, word: &mut [u8]) -> Result<Verdict, Refusal> {
    // SAFETY: as in `table`.
    let code = unsafe {
        library::gurvazze_register_trial(
            text.as_ptr(),
            text.len(),
            device.states,
            device.start,
            device.bytes.as_ptr(),
            device.bytes.len(),
            word.as_mut_ptr(),
            word.len(),
        )
    };
    verdict(code)
}

/// The table of a rule in bytes goes into `to`; returns its number of states. Refusals 1 to 3, 5 to 8, 23, 9, 10, 13.
///
/// ```
/// use gurvazze::SetUp;
///
/// let set_up = SetUp { events: 2, values: 4, top: 3, meet: &[0, 0, 0, 0, 0, 1, 0, 1, 0, 0, 2, 2, 0, 1, 2, 3] };
/// // A O1.1 V G1 X0
/// let rule = [4, 0, 0, 3, 1, 1, 5, 0, 0, 2, 1, 0, 1, 0, 0];
/// let mut to = [0; gurvazze::TABLE_BYTES];
/// assert_eq!(gurvazze::compile(set_up, &rule, &mut to)?, 3);
/// assert_eq!(to[..12], [3, 1, 1, 2, 3, 1, 3, 1, 3, 1, 3, 2]);
/// let refusal = gurvazze::compile(set_up, &rule[..12], &mut to).unwrap_err();
/// assert_eq!((refusal.number, refusal.place), (7, Some(4)));
/// # Ok::<(), gurvazze::Refusal>(())
/// ```
pub fn compile(set_up: SetUp<'_>, rule: &[u8], to: &mut [u8]) -> Result<usize, Refusal> {
    // SAFETY: as in `table`.
    let code = unsafe {
        library::gurvazze_compile(
            set_up.events,
            set_up.values,
            set_up.top,
            set_up.meet.as_ptr(),
            set_up.meet.len(),
            rule.as_ptr(),
            rule.len(),
            to.as_mut_ptr(),
            to.len(),
        )
    };
    count(code)
}

/// The table of a register's rule in bytes goes into `to`, five bytes an entry; returns its number of states. Refusals 1, 20, 5 to 8, 23, 9,
/// 10, 13.
///
/// ```
/// use gurvazze::{Masks, Register};
///
/// let register = Register { events: 2, lines: 9 };
/// let (low, top) = (Masks { low: 0x1ff, high: 0xff }, Masks { low: 0x1ff, high: 0x1ff });
/// // O1 with line 8 low, the others open
/// let mut to = [0; gurvazze::REGISTER_TABLE_BYTES];
/// assert_eq!(gurvazze::register_compile(register, &low.node(1), &mut to)?, 2);
/// assert_eq!(to[..20], [top.entry(1), low.entry(1), top.entry(1), top.entry(1)].concat());
/// // Line 8 is one too many for eight lines.
/// let refusal = gurvazze::register_compile(Register { lines: 8, ..register }, &low.node(1), &mut to).unwrap_err();
/// assert_eq!((refusal.number, refusal.place), (6, Some(0)));
/// let refusal = gurvazze::register_compile(Register { lines: 17, ..register }, &low.node(1), &mut to).unwrap_err();
/// assert_eq!((refusal.number, refusal.place), (20, None));
/// # Ok::<(), gurvazze::Refusal>(())
/// ```
pub fn register_compile(register: Register, rule: &[u8], to: &mut [u8]) -> Result<usize, Refusal> {
    // SAFETY: as in `table`.
    let code = unsafe {
        library::gurvazze_register_compile(
            register.events,
            register.lines,
            rule.as_ptr(),
            rule.len(),
            to.as_mut_ptr(),
            to.len(),
        )
    };
    count(code)
}

/// Trial of a device, of up to 64 states, against a rule's table, of up to 256. Refusals 1 to 3, 11, 13.
///
/// ```
/// use gurvazze::{Grade, SetUp, Table, Verdict};
///
/// let set_up = SetUp { events: 1, values: 2, top: 1, meet: &[0, 0, 0, 1] };
/// let mut word = [0; gurvazze::WORD_BYTES];
/// let device = Table { states: 2, start: 0, bytes: &[0, 1, 1, 1] };
/// assert_eq!(gurvazze::trial_of_table(set_up, 1, &[0, 0], device, &mut word)?, Verdict::Fail(2));
/// assert_eq!(gurvazze::trial_of_table(set_up, 1, &[1, 0], device, &mut word)?, Verdict::Pass(Grade::Stricter));
/// // Its other state is 1 for ever, and its first is not reached from there.
/// let other = Table { start: 1, ..device };
/// assert_eq!(gurvazze::trial_of_table(set_up, 1, &[1, 0], other, &mut word)?, Verdict::Pass(Grade::Same));
/// # Ok::<(), gurvazze::Refusal>(())
/// ```
///
/// A failing word may be long: here two loops disagree only where both are at their last state.
///
/// ```
/// use gurvazze::{SetUp, Table, Verdict};
///
/// let set_up = SetUp { events: 1, values: 2, top: 1, meet: &[0, 0, 0, 1] };
/// let round = |states: usize, last: u8| {
///     let entry = |state: usize| [if state + 1 == states { last } else { 1 - last }, ((state + 1) % states) as u8];
///     (0..states).flat_map(entry).collect::<Vec<u8>>()
/// };
/// let (device, table) = (round(63, 1), round(254, 0));
/// let device = Table { states: 63, start: 0, bytes: &device };
/// let mut word = [7; gurvazze::WORD_BYTES];
/// assert_eq!(gurvazze::trial_of_table(set_up, 254, &table, device, &mut word)?, Verdict::Fail(16_002));
/// assert_eq!(word[16_001..16_003], [0, 7]);
/// assert_eq!(gurvazze::trial_of_table(set_up, 254, &table, device, &mut word[1..]).unwrap_err().number, 13);
/// let table = Table { states: 254, start: 0, bytes: &table };
/// assert_eq!(gurvazze::trial_of_table(set_up, 1, &[1, 0], table, &mut word).unwrap_err().number, 11);
/// # Ok::<(), gurvazze::Refusal>(())
/// ```
pub fn trial_of_table(
    set_up: SetUp<'_>,
    states: usize,
    table: &[u8],
    device: Table<'_>,
    word: &mut [u8],
) -> Result<Verdict, Refusal> {
    // SAFETY: as in `table`.
    let code = unsafe {
        library::gurvazze_trial_table(
            set_up.events,
            set_up.values,
            set_up.top,
            set_up.meet.as_ptr(),
            set_up.meet.len(),
            states,
            table.as_ptr(),
            table.len(),
            device.states,
            device.start,
            device.bytes.as_ptr(),
            device.bytes.len(),
            word.as_mut_ptr(),
            word.len(),
        )
    };
    verdict(code)
}

/// Trial of a register's device, of up to 64 states, against a rule's table, of up to 256, both with five bytes an entry. Refusals 1, 20, 11,
/// 13.
///
/// ```
/// use gurvazze::{Grade, Masks, Register, Table, Verdict};
///
/// let register = Register { events: 1, lines: 2 };
/// let (open, low) = (Masks { low: 3, high: 3 }, Masks { low: 3, high: 0 });
/// let mut word = [0; gurvazze::WORD_BYTES];
/// // Both lines are low on the first event, and open on each later one.
/// let device = [low.entry(1), open.entry(1)].concat();
/// let device = Table { states: 2, start: 0, bytes: &device };
/// assert_eq!(gurvazze::register_trial_of_table(register, 1, &low.entry(0), device, &mut word)?, Verdict::Fail(2));
/// let passes = gurvazze::register_trial_of_table(register, 1, &open.entry(0), device, &mut word)?;
/// assert_eq!(passes, Verdict::Pass(Grade::Stricter));
/// let passes = gurvazze::register_trial_of_table(register, 2, device.bytes, device, &mut word)?;
/// assert_eq!(passes, Verdict::Pass(Grade::Same));
/// # Ok::<(), gurvazze::Refusal>(())
/// ```
pub fn register_trial_of_table(
    register: Register,
    states: usize,
    table: &[u8],
    device: Table<'_>,
    word: &mut [u8],
) -> Result<Verdict, Refusal> {
    // SAFETY: as in `table`.
    let code = unsafe {
        library::gurvazze_register_trial_table(
            register.events,
            register.lines,
            states,
            table.as_ptr(),
            table.len(),
            device.states,
            device.start,
            device.bytes.as_ptr(),
            device.bytes.len(),
            word.as_mut_ptr(),
            word.len(),
        )
    };
    verdict(code)
}

/// The rule of a table, of up to 256 states, goes into `to`, three bytes a node; returns its number of nodes. Refusals 1 to 3, 11, 12, 23, 13.
///
/// ```
/// use gurvazze::{SetUp, Table};
///
/// let set_up = SetUp { events: 1, values: 2, top: 1, meet: &[0, 0, 0, 1] };
/// let mut to = [0; gurvazze::RULE_BYTES];
/// let nodes = gurvazze::rule(set_up, Table { states: 1, start: 0, bytes: &[0, 0] }, &mut to)?;
/// // V A G0 X0 O0.0
/// assert_eq!(to[..3 * nodes], [5, 0, 0, 4, 0, 0, 2, 0, 0, 1, 0, 0, 3, 0, 0]);
/// # Ok::<(), gurvazze::Refusal>(())
/// ```
///
/// What is written is always a rule that [`table`] takes. A path of it has a V node for each state that is open there, and 23 is given for
/// more than twelve: here a chain of states whose last returns to itself.
///
/// ```
/// use gurvazze::{SetUp, Table};
///
/// let set_up = SetUp { events: 1, values: 2, top: 1, meet: &[0, 0, 0, 1] };
/// let chain = |states: u8| (0..states).flat_map(|state| [1, (state + 1).min(states - 1)]).collect::<Vec<u8>>();
/// let mut to = [0; gurvazze::RULE_BYTES];
/// assert_eq!(gurvazze::rule(set_up, Table { states: 12, start: 0, bytes: &chain(12) }, &mut to)?, 49);
/// let refusal = gurvazze::rule(set_up, Table { states: 13, start: 0, bytes: &chain(13) }, &mut to).unwrap_err();
/// assert_eq!((refusal.number, refusal.place), (23, None));
/// # Ok::<(), gurvazze::Refusal>(())
/// ```
pub fn rule(set_up: SetUp<'_>, table: Table<'_>, to: &mut [u8]) -> Result<usize, Refusal> {
    // SAFETY: as in `table`.
    let code = unsafe {
        library::gurvazze_rule(
            set_up.events,
            set_up.values,
            set_up.top,
            set_up.meet.as_ptr(),
            set_up.meet.len(),
            table.states,
            table.start,
            table.bytes.as_ptr(),
            table.bytes.len(),
            to.as_mut_ptr(),
            to.len(),
        )
    };
    count(code)
}

/// The rule of a register's table, of up to 256 states with five bytes an entry, goes into `to`, six bytes a node; returns its number of nodes.
/// Refusals 1, 20, 11, 12, 23, 13. What is written is always a rule that [`register_compile`] takes.
///
/// ```
/// use gurvazze::{Masks, Register, Table};
///
/// let register = Register { events: 1, lines: 1 };
/// let low = Masks { low: 1, high: 0 };
/// let mut to = [0; gurvazze::REGISTER_RULE_BYTES];
/// let nodes = gurvazze::register_rule(register, Table { states: 1, start: 0, bytes: &low.entry(0) }, &mut to)?;
/// assert_eq!(nodes, 5);
/// // V A G0 X0, then O0 with line 0 low
/// assert_eq!(to[..24], [5, 0, 0, 0, 0, 0, 4, 0, 0, 0, 0, 0, 2, 0, 0, 0, 0, 0, 1, 0, 0, 0, 0, 0]);
/// assert_eq!(to[24..30], low.node(0));
/// # Ok::<(), gurvazze::Refusal>(())
/// ```
pub fn register_rule(register: Register, table: Table<'_>, to: &mut [u8]) -> Result<usize, Refusal> {
    // SAFETY: as in `table`.
    let code = unsafe {
        library::gurvazze_register_rule(
            register.events,
            register.lines,
            table.states,
            table.start,
            table.bytes.as_ptr(),
            table.bytes.len(),
            to.as_mut_ptr(),
            to.len(),
        )
    };
    count(code)
}

/// The table of a file yields its numbers: states in sixteen bits, then eight each.
fn numbers(code: u64) -> Result<TableNumbers, Refusal> {
    yielded(code).map(|numbers| {
        let byte = |shift: u32| (numbers >> shift & 255) as usize;
        TableNumbers { states: (numbers & 65535) as usize, events: byte(16), values: byte(24), top: byte(32) }
    })
}

/// A call that makes something yields its count.
fn count(code: u64) -> Result<usize, Refusal> {
    yielded(code).map(|count| count as usize)
}

/// A trial yields 0 for a pass as same, 65,536 for a pass as stricter, and else the length of the failing word, 1 to 16,384.
fn verdict(code: u64) -> Result<Verdict, Refusal> {
    yielded(code).map(|number| match number {
        0 => Verdict::Pass(Grade::Same),
        65536 => Verdict::Pass(Grade::Stricter),
        length => Verdict::Fail(length as usize),
    })
}

/// The low byte of an answer is the refusal's number, 0 where there is none; above it stands the place or what was yielded.
fn yielded(code: u64) -> Result<u64, Refusal> {
    let (number, rest) = ((code & 255) as u8, code >> 8);
    if number == 0 {
        return Ok(rest);
    }
    let has_place = number == 4 || (6..=9).contains(&number);
    Err(Refusal { number, place: has_place.then_some(rest as usize) })
}

/// The exported functions. A slice is handed over as its pointer, never null, and its length.
mod library {
    extern "C" {
        pub fn gurvazze_table(text: *const u8, text_length: usize, to: *mut u8, to_length: usize) -> u64;

        pub fn gurvazze_register_table(text: *const u8, text_length: usize, to: *mut u8, to_length: usize) -> u64;

        pub fn gurvazze_replay(
            text: *const u8,
            text_length: usize,
            word: *const u8,
            word_length: usize,
            to: *mut u8,
            to_length: usize,
        ) -> u64;

        pub fn gurvazze_register_replay(
            text: *const u8,
            text_length: usize,
            word: *const u8,
            word_length: usize,
            to: *mut u8,
            to_length: usize,
        ) -> u64;

        pub fn gurvazze_trial(
            text: *const u8,
            text_length: usize,
            device_states: usize,
            device_start: usize,
            device: *const u8,
            device_length: usize,
            word: *mut u8,
            word_length: usize,
        ) -> u64;

        pub fn gurvazze_register_trial(
            text: *const u8,
            text_length: usize,
            device_states: usize,
            device_start: usize,
            device: *const u8,
            device_length: usize,
            word: *mut u8,
            word_length: usize,
        ) -> u64;

        pub fn gurvazze_compile(
            events: usize,
            values: usize,
            top: usize,
            meet: *const u8,
            meet_length: usize,
            rule: *const u8,
            rule_length: usize,
            to: *mut u8,
            to_length: usize,
        ) -> u64;

        pub fn gurvazze_register_compile(
            events: usize,
            lines: usize,
            rule: *const u8,
            rule_length: usize,
            to: *mut u8,
            to_length: usize,
        ) -> u64;

        pub fn gurvazze_trial_table(
            events: usize,
            values: usize,
            top: usize,
            meet: *const u8,
            meet_length: usize,
            states: usize,
            table: *const u8,
            table_length: usize,
            device_states: usize,
            device_start: usize,
            device: *const u8,
            device_length: usize,
            word: *mut u8,
            word_length: usize,
        ) -> u64;

        pub fn gurvazze_register_trial_table(
            events: usize,
            lines: usize,
            states: usize,
            table: *const u8,
            table_length: usize,
            device_states: usize,
            device_start: usize,
            device: *const u8,
            device_length: usize,
            word: *mut u8,
            word_length: usize,
        ) -> u64;

        pub fn gurvazze_rule(
            events: usize,
            values: usize,
            top: usize,
            meet: *const u8,
            meet_length: usize,
            states: usize,
            start: usize,
            table: *const u8,
            table_length: usize,
            to: *mut u8,
            to_length: usize,
        ) -> u64;

        pub fn gurvazze_register_rule(
            events: usize,
            lines: usize,
            states: usize,
            start: usize,
            table: *const u8,
            table_length: usize,
            to: *mut u8,
            to_length: usize,
        ) -> u64;
    }
}
