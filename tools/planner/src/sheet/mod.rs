//! A sheet by its parts. A price of 0 and an empty reset are fields that do not stand.

pub mod decode;
pub mod describe;
pub mod edition;
pub mod encode;
pub mod hex;
pub mod limits;
pub mod pairs;
mod reader;
pub mod refusal;

use edition::Edition;
use limits::CLOCKS;

/// A byte for each clock, where it has one.
pub type Bytes = [Option<u8>; CLOCKS];

#[derive(Clone, Debug, Default, PartialEq, Eq)]
pub struct Location {
    pub name: String,
    pub cost: i16,
    pub reward: u16,
    pub upper: Bytes,
}

#[derive(Clone, Debug, Default, PartialEq, Eq)]
pub struct Edge {
    pub name: String,
    pub source: usize,
    pub target: usize,
    pub cost: i16,
    pub reward: u16,
    pub reset: u8,
    pub lower: Bytes,
    pub upper: Bytes,
}

#[derive(Clone, Debug, Default, PartialEq, Eq)]
pub struct Sheet {
    pub edition: Edition,
    pub clocks: Vec<String>,
    pub locations: Vec<Location>,
    pub edges: Vec<Edge>,
}

impl Sheet {
    /// The bounds and guards that stand, upper ones and lower ones.
    fn tests(&mut self) -> (Vec<&mut u8>, Vec<&mut u8>) {
        let (mut upper, mut lower) = (Vec::new(), Vec::new());
        upper.extend(self.locations.iter_mut().flat_map(|location| location.upper.iter_mut().flatten()));
        for edge in &mut self.edges {
            upper.extend(edge.upper.iter_mut().flatten());
            lower.extend(edge.lower.iter_mut().flatten());
        }
        (upper, lower)
    }

    /// The same sheet with every strict bound and guard taken as one that may be reached.
    pub fn closed(&self) -> Sheet {
        let mut closed = self.clone();
        let (upper, lower) = closed.tests();
        upper.into_iter().for_each(|byte| *byte |= 1);
        lower.into_iter().for_each(|byte| *byte &= !1);
        closed
    }

    /// Is no bound and no guard strict?
    pub fn is_closed(&self) -> bool {
        *self == self.closed()
    }
}

/// The byte of `clock < bound`, or of `clock <= bound` where the bound may be reached.
pub fn upper_byte(bound: u8, reached: bool) -> u8 {
    2 * bound + u8::from(reached)
}

/// The byte of `clock > bound`, or of `clock >= bound` where the bound may be reached.
pub fn lower_byte(bound: u8, reached: bool) -> u8 {
    2 * bound + u8::from(!reached)
}

pub fn upper_words(byte: u8) -> String {
    format!("{} {}", if byte % 2 == 1 { "<=" } else { "<" }, byte / 2)
}

pub fn lower_words(byte: u8) -> String {
    format!("{} {}", if byte % 2 == 1 { ">" } else { ">=" }, byte / 2)
}
