//! The one type of all refusals.

use std::fmt;

/// "Each returns its number (4 and 6 to 9 also a place)".
#[derive(Clone, Copy, Debug, PartialEq, Eq, Hash)]
pub struct Refusal {
    /// The number in document 01's list; 18 and 19 (F-6), 20 (F-7), 23 (F-9) and 25 (F-12) are document 02's.
    pub number: u8,
    /// A byte offset for 4, a node number for 6 to 9, nothing for the others.
    pub place: Option<usize>,
}

impl Refusal {
    /// A refusal without a place.
    pub const fn new(number: u8) -> Refusal {
        Refusal { number, place: None }
    }

    /// A refusal at a place.
    pub const fn at(number: u8, place: usize) -> Refusal {
        Refusal { number, place: Some(place) }
    }
}

/// "the number and, if there is a place, a space and the place".
impl fmt::Display for Refusal {
    fn fmt(&self, f: &mut fmt::Formatter<'_>) -> fmt::Result {
        match self.place {
            Some(place) => write!(f, "{} {}", self.number, place),
            None => write!(f, "{}", self.number),
        }
    }
}

impl std::error::Error for Refusal {}

/// 13: "lent buffer shorter than the output".
pub(crate) fn room(lent: &[u8], needed: usize) -> Result<(), Refusal> {
    if lent.len() < needed {
        return Err(Refusal::new(13));
    }
    Ok(())
}
