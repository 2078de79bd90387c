//! Question 18: the strict bounds and guards of a sheet, wherever they stand.

use crate::reading::explore::Graph;
use crate::reading::sheet::Sheet;

#[derive(Clone, Copy, PartialEq)]
pub enum Byte {
    Bound,
    UpperGuard,
    LowerGuard,
}

/// A byte that is strict: of a location where it is a bound, otherwise of an edge.
pub struct Strict {
    pub byte: Byte,
    /// The number of the location or of the edge.
    pub at: usize,
    pub clock: usize,
    pub value: u8,
}

impl Byte {
    /// A byte 2c of an upper bound or guard means less than c, a byte 2c + 1 of a lower guard more.
    fn is_strict(self, value: u8) -> bool {
        match self {
            Byte::Bound | Byte::UpperGuard => value % 2 == 0,
            Byte::LowerGuard => value % 2 == 1,
        }
    }
}

/// The strict ones of a record's bytes of one sort, where there are any: one for each clock.
fn strict_of(byte: Byte, at: usize, values: &[Option<u8>]) -> Vec<Strict> {
    let clocks = values.iter().enumerate();
    let there = clocks.filter_map(|(clock, &value)| Some((clock, value?)));
    let strict = there.filter(|&(_, value)| byte.is_strict(value));
    strict.map(|(clock, value)| Strict { byte, at, clock, value }).collect()
}

pub fn strict_bytes(sheet: &Sheet) -> Vec<Strict> {
    let mut found = Vec::new();
    for (at, location) in sheet.locations.iter().enumerate() {
        found.extend(strict_of(Byte::Bound, at, &location.upper.map(Some)[..sheet.clocks]));
    }
    for (at, edge) in sheet.edges.iter().enumerate() {
        found.extend(strict_of(Byte::UpperGuard, at, &edge.upper[..sheet.clocks]));
        found.extend(strict_of(Byte::LowerGuard, at, &edge.lower[..sheet.clocks]));
    }
    found
}

/// Whether no bound and no guard is strict.
pub fn all_closed(sheet: &Sheet) -> bool {
    strict_bytes(sheet).is_empty()
}

impl Strict {
    /// Whether some run comes to the location or takes the edge: the graph is whole.
    pub fn is_reached(&self, graph: &Graph) -> bool {
        match self.byte {
            Byte::Bound => graph.locations.contains(&self.at),
            _ => graph.codes.contains(&(self.at as u16)),
        }
    }
}
