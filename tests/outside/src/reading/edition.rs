//! The editions of sheets: how many clocks each allows, and where a node's number has its parts.

/// The most clocks that a sheet of any edition has.
pub const MOST_CLOCKS: usize = 4;

/// The bits of a clock's whole part in a node's number, above those of its class.
pub const WHOLE_BITS: u32 = 4;

#[derive(Clone, Copy, Debug, Default, PartialEq)]
pub enum Edition {
    #[default]
    First,
    Second,
}

impl Edition {
    pub fn of_byte(byte: u8) -> Option<Edition> {
        [Edition::First, Edition::Second].into_iter().find(|edition| edition.byte() == byte)
    }

    pub fn byte(self) -> u8 {
        match self {
            Edition::First => 1,
            Edition::Second => 2,
        }
    }

    pub fn other(self) -> Edition {
        match self {
            Edition::First => Edition::Second,
            Edition::Second => Edition::First,
        }
    }

    pub fn most_clocks(self) -> usize {
        match self {
            Edition::First => 3,
            Edition::Second => 4,
        }
    }

    /// The bits of a class, and of the corner, which stands lowest in a node's number.
    pub fn rank_bits(self) -> u32 {
        match self {
            Edition::First => 2,
            Edition::Second => 3,
        }
    }

    /// The first of the four bits of the location in a node's number.
    pub fn location_bit(self) -> u32 {
        match self {
            Edition::First => 20,
            Edition::Second => 31,
        }
    }

    /// The first bit of a clock in a node's number.
    pub fn clock_bit(self, clock: usize) -> u32 {
        self.rank_bits() + clock as u32 * (self.rank_bits() + WHOLE_BITS)
    }
}
