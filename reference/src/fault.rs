//! Faults: a number and a place; the layer follows from the number.

use std::fmt;

#[derive(Clone, Copy, Debug, PartialEq, Eq)]
pub struct Fault {
    pub number: u32,
    pub place: usize,
}

impl Fault {
    pub fn new(number: u32, place: usize) -> Self {
        Fault { number, place }
    }

    pub fn layer(self) -> &'static str {
        match self.number {
            1..=6 => "bits",
            7..=12 => "rows",
            13..=15 => "program",
            _ => "player",
        }
    }
}

impl fmt::Display for Fault {
    fn fmt(&self, f: &mut fmt::Formatter<'_>) -> fmt::Result {
        write!(f, "refused {} {} {}", self.number, self.place, self.layer())
    }
}
