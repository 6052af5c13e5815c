//! Values of two kinds, numbers with a meet table and registers: set-ups, their refusals 1 to 3 and 20, meet, and how two values compare.

use crate::Refusal;

/// "1 to 16 events".
pub const MAX_EVENTS: usize = 16;
/// "1 to 16 values".
pub const MAX_VALUES: usize = 16;
/// "a register of 1 to 16 lines" (document 02, F-7).
pub const MAX_LINES: usize = 16;

/// "The four-value set below is supplied ready as a fixed table. 0 is conflict, 1 low, 2 high, 3 top".
pub const FOUR_VALUES: [u8; 16] = [0, 0, 0, 0, 0, 1, 0, 1, 0, 0, 2, 2, 0, 1, 2, 3];

/// A value of either kind: a number, or the two masks of a register in one, as `of_masks` puts them. Which it is, its set-up says: "A tool
/// has one kind of value throughout" (document 02, F-7).
pub type Value = u32;

/// "A value is two 16-bit masks, may-be-low and may-be-high, bit 0 for line 0" (document 02, F-7).
pub const fn of_masks(low: u16, high: u16) -> Value {
    (high as Value) << 16 | low as Value
}

/// The masks may-be-low and may-be-high of a value of a register.
pub const fn masks_of(value: Value) -> (u16, u16) {
    (value as u16, (value >> 16) as u16)
}

/// A kind of values.
#[derive(Clone, Copy, Debug, PartialEq, Eq, Hash)]
pub enum Kind {
    /// Document 01's: numbers with a meet table.
    Numbers,
    /// Document 02's, F-7: the lines of a register.
    Register,
}

impl Kind {
    /// How many bytes a value has in a node and in an entry: "one byte each where lent"; for a register the two masks.
    pub const fn value_bytes(self) -> usize {
        match self {
            Kind::Numbers => 1,
            Kind::Register => 4,
        }
    }

    /// "A node is three bytes: kind, first, second"; for a register "A node is six bytes: kind, first, low mask, high mask" (document 02,
    /// F-7).
    pub const fn node_bytes(self) -> usize {
        2 + self.value_bytes()
    }

    /// "A table entry is a value and a next state, one byte each where lent"; for a register "A lent table entry is five: the masks
    /// likewise, then the next state" (document 02, F-7).
    pub const fn entry_bytes(self) -> usize {
        self.value_bytes() + 1
    }

    /// The value in so many bytes: the number, or "low mask, high mask, each mask's low byte first".
    pub fn value_from(self, bytes: &[u8]) -> Value {
        match (self, bytes) {
            (Kind::Numbers, &[number]) => number.into(),
            (Kind::Register, &[low, low_next, high, high_next]) => {
                of_masks(u16::from_le_bytes([low, low_next]), u16::from_le_bytes([high, high_next]))
            }
            _ => unreachable!("a value has so many bytes"),
        }
    }

    /// A value in bytes; a number is below 256.
    pub fn value_to_bytes(self, value: Value) -> Vec<u8> {
        let mut bytes = Vec::new();
        self.push_value(value, &mut bytes);
        bytes
    }

    /// Adds a value in bytes.
    pub(crate) fn push_value(self, value: Value, bytes: &mut Vec<u8>) {
        match self {
            Kind::Numbers => bytes.push(u8::try_from(value).expect("a number is one byte")),
            Kind::Register => {
                let (low, high) = masks_of(value);
                let ([low, low_next], [high, high_next]) = (low.to_le_bytes(), high.to_le_bytes());
                bytes.extend([low, low_next, high, high_next]);
            }
        }
    }

    /// The numbers that a value is written as: itself, or may-be-low and may-be-high.
    pub fn numbers_of(self, value: Value) -> Vec<usize> {
        match self {
            Kind::Numbers => vec![value as usize],
            Kind::Register => {
                let (low, high) = masks_of(value);
                vec![low.into(), high.into()]
            }
        }
    }
}

/// Document 01's values as they are handed in: any numbers, any meet table.
#[derive(Clone, Debug, PartialEq, Eq, Hash)]
pub struct RawNumbers {
    /// How many values.
    pub values: usize,
    /// The top value (open).
    pub top: usize,
    /// The meet table, row by row.
    pub meet: Vec<u8>,
}

/// The values of a set-up as they are handed in.
#[derive(Clone, Debug, PartialEq, Eq, Hash)]
pub enum RawValues {
    /// Numbers with a meet table.
    Numbers(RawNumbers),
    /// A register (document 02, F-7).
    Register {
        /// How many lines.
        lines: usize,
    },
}

/// A set-up as it is handed in.
#[derive(Clone, Debug, PartialEq, Eq, Hash)]
pub struct RawSetUp {
    /// How many events.
    pub events: usize,
    /// The values.
    pub values: RawValues,
}

impl RawSetUp {
    /// Numbers with a meet table.
    pub fn numbers(events: usize, values: usize, top: usize, meet: Vec<u8>) -> RawSetUp {
        RawSetUp { events, values: RawValues::Numbers(RawNumbers { values, top, meet }) }
    }

    /// A register (document 02, F-7).
    pub fn register(events: usize, lines: usize) -> RawSetUp {
        RawSetUp { events, values: RawValues::Register { lines } }
    }

    /// The four-value set with so many events.
    pub fn four_values(events: usize) -> RawSetUp {
        RawSetUp::numbers(events, 4, 3, FOUR_VALUES.to_vec())
    }

    /// The kind of the values.
    pub fn kind(&self) -> Kind {
        match self.values {
            RawValues::Numbers(_) => Kind::Numbers,
            RawValues::Register { .. } => Kind::Register,
        }
    }

    /// Refusals 1 to 3, in this order; for a register 1, then "20, lines outside 1 to 16, in the place of 2 and 3" (document 02, F-7).
    pub fn check(&self) -> Result<(), Refusal> {
        // 1: "events not 1 to 16".
        if !(1..=MAX_EVENTS).contains(&self.events) {
            return Err(Refusal::new(1));
        }
        match &self.values {
            RawValues::Numbers(numbers) => numbers.check(),
            RawValues::Register { lines } if (1..=MAX_LINES).contains(lines) => Ok(()),
            RawValues::Register { .. } => Err(Refusal::new(20)),
        }
    }

    /// Whether a value is one of the set-up's, which `check` does not refuse: a number below that of its values; masks without "a mask bit
    /// at or above the line count" (document 02, F-7).
    pub fn has(&self, value: Value) -> bool {
        match self.values {
            RawValues::Numbers(RawNumbers { values, .. }) => (value as usize) < values,
            RawValues::Register { lines } => {
                let (low, high) = masks_of(value);
                [low, high].into_iter().all(|mask| u32::from(mask) >> lines == 0)
            }
        }
    }
}

impl RawNumbers {
    /// Refusals 2 and 3.
    fn check(&self) -> Result<(), Refusal> {
        // 2: "values not 1 to 16, or top not below values".
        if !(1..=MAX_VALUES).contains(&self.values) || self.top >= self.values {
            return Err(Refusal::new(2));
        }
        // 3: "meet length wrong, an entry not below values, or a law broken".
        if self.meet.len() != self.values * self.values
            || self.meet.iter().any(|&entry| usize::from(entry) >= self.values)
            || !self.is_lawful()
        {
            return Err(Refusal::new(3));
        }
        Ok(())
    }

    /// "Meet is idempotent, commutative, associative for every three values, and top is neutral."
    /// The length and the entries have been checked.
    fn is_lawful(&self) -> bool {
        let meet = |b: usize, c: usize| usize::from(self.meet[b * self.values + c]);
        let values = 0..self.values;
        values.clone().all(|b| meet(b, b) == b && meet(b, self.top) == b && meet(self.top, b) == b)
            && values.clone().all(|b| values.clone().all(|c| meet(b, c) == meet(c, b)))
            && values.clone().all(|b| {
                values.clone().all(|c| {
                    let bc = meet(b, c);
                    values.clone().all(|d| meet(bc, d) == meet(b, meet(c, d)))
                })
            })
    }
}

/// What comparing two values tells (document 02, F-5).
#[derive(Clone, Copy, Debug, PartialEq, Eq, Hash)]
pub enum Comparison {
    /// Both are the same value.
    Equal,
    /// The first is at or below the second and is not the second.
    StrictlyBelow,
    /// The first is not at or below the second.
    NotBelow,
}

/// A set-up that 1 to 3 and 20 do not refuse.
#[derive(Clone, Debug, PartialEq, Eq, Hash)]
pub struct SetUp(RawSetUp);

impl SetUp {
    /// Checks a set-up: refusals 1 to 3, or 1 and 20.
    pub fn new(raw: RawSetUp) -> Result<SetUp, Refusal> {
        raw.check()?;
        Ok(SetUp(raw))
    }

    /// How many events.
    pub fn events(&self) -> usize {
        self.0.events
    }

    /// The kind of the values.
    pub fn kind(&self) -> Kind {
        self.0.kind()
    }

    /// Whether a value is one of the set-up's.
    pub fn has(&self, value: Value) -> bool {
        self.0.has(value)
    }

    /// The top value (open); for a register "top has all lines' bits set in both" (document 02, F-7).
    pub fn top(&self) -> Value {
        match self.0.values {
            RawValues::Numbers(RawNumbers { top, .. }) => top as Value,
            RawValues::Register { lines } => {
                let all = u16::MAX >> (MAX_LINES - lines);
                of_masks(all, all)
            }
        }
    }

    /// The meet of two values; for a register "meet is the bitwise and of each" mask (document 02, F-7).
    pub fn meet(&self, b: Value, c: Value) -> Value {
        match &self.0.values {
            RawValues::Numbers(numbers) => numbers.meet[b as usize * numbers.values + c as usize].into(),
            RawValues::Register { .. } => {
                let ((low, high), (other_low, other_high)) = (masks_of(b), masks_of(c));
                of_masks(low & other_low, high & other_high)
            }
        }
    }

    /// "Comparing two values shall tell equal, strictly below, or not below" (document 02, F-5), where "b is at or below c when
    /// the meet of b and c is b". A value is at or below itself, since meet is idempotent.
    pub fn compare(&self, b: Value, c: Value) -> Comparison {
        if b == c {
            Comparison::Equal
        } else if self.meet(b, c) == b {
            Comparison::StrictlyBelow
        } else {
            Comparison::NotBelow
        }
    }

    /// Whether b is at or below c.
    pub fn at_or_below(&self, b: Value, c: Value) -> bool {
        self.compare(b, c) != Comparison::NotBelow
    }

    /// The same set-up as plain data.
    pub fn raw(&self) -> &RawSetUp {
        &self.0
    }
}
