//! "Distance with every event" (document 02, F-6): the wheel with its refusal 18, totals of pulses, and what an event returns.

use crate::values::Value;
use crate::Refusal;

/// P and C are "each 1 to 65,535".
pub const MAX_PER_TURN: usize = 65_535;
/// 19: "a total above 1,099,511,627,776".
pub const MAX_TOTAL: u64 = 1_099_511_627_776;

/// "pulses per wheel turn, P, and millimetres per turn, C", as they are handed in: any numbers.
#[derive(Clone, Copy, Debug, PartialEq, Eq, Hash)]
pub struct Wheel {
    /// P.
    pub pulses: usize,
    /// C.
    pub millimetres: usize,
}

impl Wheel {
    /// 18: "P or C outside its range".
    pub fn check(self) -> Result<(), Refusal> {
        let range = 1..=MAX_PER_TURN;
        if range.contains(&self.pulses) && range.contains(&self.millimetres) {
            Ok(())
        } else {
            Err(Refusal::new(18))
        }
    }

    /// How far a total of pulses is. Neither 18 nor 19 holds, so the product is below 2^56.
    pub fn distance(self, total: u64) -> Distance {
        let (p, c) = (self.pulses as u64, self.millimetres as u64);
        Distance { millimetres: total * c / p, rest: total * c % p }
    }
}

/// "whole millimetres, total × C divided by P, with the exact remainder in P-ths of a millimetre".
#[derive(Clone, Copy, Debug, PartialEq, Eq, Hash)]
pub struct Distance {
    /// The whole millimetres.
    pub millimetres: u64,
    /// The remainder, below P.
    pub rest: u64,
}

/// What an accepted event returns: the value, and "this event's pulses counted in", the distance.
#[derive(Clone, Copy, Debug, PartialEq, Eq, Hash)]
pub struct Reading {
    /// The value.
    pub value: Value,
    /// The distance.
    pub distance: Distance,
}
