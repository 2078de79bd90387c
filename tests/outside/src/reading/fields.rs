//! What a bit of a map means, and which values its field may have.

use crate::reading::edition::Edition;

#[derive(Clone, Copy, PartialEq)]
pub enum Field {
    Cost,
    Reward,
    Mask,
    /// A lower guard of this clock.
    Lower(usize),
    /// A bound or an upper guard of this clock.
    Upper(usize),
}

impl Field {
    pub fn width(self) -> usize {
        match self {
            Field::Cost | Field::Reward => 2,
            _ => 1,
        }
    }

    pub fn admits(self, value: i64, clocks: usize) -> bool {
        match self {
            Field::Cost => value != 0 && (-10_000..=10_000).contains(&value),
            Field::Reward => (1..=10_000).contains(&value),
            Field::Mask => (1..1 << clocks).contains(&value),
            Field::Upper(_) => (0..=25).contains(&value),
            Field::Lower(_) => (1..=25).contains(&value),
        }
    }

    /// Whether a sheet with this number of clocks may have the field.
    pub fn is_permitted(self, clocks: usize) -> bool {
        match self {
            Field::Lower(clock) | Field::Upper(clock) => clock < clocks,
            _ => true,
        }
    }
}

/// The field of each bit of a location's map.
pub fn location_bits(edition: Edition) -> Vec<Field> {
    let bounds = (0..edition.most_clocks()).map(Field::Upper);
    [Field::Cost, Field::Reward].into_iter().chain(bounds).collect()
}

/// The field of each bit of an edge's map.
pub fn edge_bits(edition: Edition) -> Vec<Field> {
    let clocks = 0..edition.most_clocks();
    let guards = clocks.clone().map(Field::Lower).chain(clocks.map(Field::Upper));
    [Field::Cost, Field::Reward, Field::Mask].into_iter().chain(guards).collect()
}

/// The map with the bits of all these fields but for clocks that the sheet has not.
pub fn permitted(bits: &[Field], clocks: usize) -> u16 {
    let places = (0..bits.len()).filter(|&bit| bits[bit].is_permitted(clocks));
    places.map(|bit| 1 << bit).sum()
}

/// The bytes of an edge record with every field.
pub fn longest_edge(edition: Edition) -> usize {
    4 + edge_bits(edition).iter().map(|field| field.width()).sum::<usize>()
}
