//! What a refused call carries: its number and, for 5, 13 to 15 and 18, an index.

use std::fmt;

#[derive(Clone, Copy, Debug, PartialEq)]
pub struct Refusal {
    pub number: u32,
    pub index: Option<usize>,
}

/// One row of the table: refuse with `number` unless `holds`.
pub fn require(holds: bool, number: u32) -> Result<(), Refusal> {
    match holds {
        true => Ok(()),
        false => Err(Refusal { number, index: None }),
    }
}

/// A row whose refusal names the faulty item.
pub fn require_at(holds: bool, number: u32, index: usize) -> Result<(), Refusal> {
    match holds {
        true => Ok(()),
        false => Err(Refusal { number, index: Some(index) }),
    }
}

impl fmt::Display for Refusal {
    fn fmt(&self, out: &mut fmt::Formatter) -> fmt::Result {
        match self.index {
            Some(index) => write!(out, "refused {} {}", self.number, index),
            None => write!(out, "refused {}", self.number),
        }
    }
}
