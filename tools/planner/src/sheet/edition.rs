//! The editions of sheets. They differ in how many clocks there may be, and in where the bits of edges' maps and the parts of node
//! numbers stand for that.

use super::limits::CLOCKS;

#[derive(Clone, Copy, Debug, Default, PartialEq, Eq)]
pub enum Edition {
    #[default]
    First,
    Second,
}

/// In the order of their numbers.
pub const EDITIONS: [Edition; 2] = [Edition::First, Edition::Second];

impl Edition {
    /// The first byte of a sheet is the number of its edition.
    pub fn of(number: u8) -> Option<Edition> {
        EDITIONS.into_iter().find(|edition| edition.number() == number)
    }

    pub fn number(self) -> u8 {
        match self {
            Edition::First => 1,
            Edition::Second => 2,
        }
    }

    /// The edition of a sheet with this number of clocks that asks for none.
    pub fn least_for(clocks: usize) -> Edition {
        EDITIONS.into_iter().find(|edition| clocks <= edition.clocks()).unwrap_or(Edition::Second)
    }

    /// How many clocks a sheet may have.
    pub fn clocks(self) -> usize {
        match self {
            Edition::First => 3,
            Edition::Second => CLOCKS,
        }
    }

    /// The bit of clock 0 in the map of an edge, for its upper guard; those of the lower guards come before.
    pub fn upper_guards(self) -> usize {
        LOWER_GUARDS + self.clocks()
    }

    /// The bits of a corner in a node number, and of a clock's class.
    pub fn class_bits(self) -> usize {
        match self {
            Edition::First => 2,
            Edition::Second => 3,
        }
    }
}

/// The bit of clock 0 in the map of a location, for its bound.
pub const BOUNDS: usize = 2;
/// The bit of clock 0 in the map of an edge, for its lower guard.
pub const LOWER_GUARDS: usize = 3;
