//! What a sheet may hold.

pub const LOCATIONS: usize = 12;
/// Of the edition that has most.
pub const CLOCKS: usize = 4;
pub const EDGES: usize = 32;
pub const LENGTHS: std::ops::RangeInclusive<usize> = 4..=656;
/// The largest number that a clock is compared with.
pub const BOUND: i64 = 12;
pub const PRICE: i64 = 10_000;
