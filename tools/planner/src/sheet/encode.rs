//! From a sheet to its bytes.

use super::edition::{Edition, BOUNDS, LOWER_GUARDS};
use super::{Bytes, Edge, Location, Sheet};

/// Bits from `first` on, for the clocks that have a byte.
fn clock_bits(bytes: &Bytes, first: usize) -> u16 {
    bytes.iter().enumerate().map(|(j, byte)| u16::from(byte.is_some()) << (first + j)).sum()
}

fn price_bits(cost: i16, reward: u16) -> u16 {
    u16::from(cost != 0) | u16::from(reward != 0) << 1
}

fn put_prices(out: &mut Vec<u8>, cost: i16, reward: u16) {
    if cost != 0 {
        out.extend(cost.to_le_bytes());
    }
    if reward != 0 {
        out.extend(reward.to_le_bytes());
    }
}

fn put_location(out: &mut Vec<u8>, location: &Location) {
    out.push((price_bits(location.cost, location.reward) | clock_bits(&location.upper, BOUNDS)) as u8);
    put_prices(out, location.cost, location.reward);
    out.extend(location.upper.iter().flatten());
}

/// The bytes of an edge's record.
pub fn edge_record(edition: Edition, edge: &Edge) -> Vec<u8> {
    let resets = u16::from(edge.reset != 0) << 2;
    let guards = clock_bits(&edge.lower, LOWER_GUARDS) | clock_bits(&edge.upper, edition.upper_guards());
    let map = price_bits(edge.cost, edge.reward) | resets | guards;
    let mut out = map.to_le_bytes().to_vec();
    out.extend([edge.source as u8, edge.target as u8]);
    put_prices(&mut out, edge.cost, edge.reward);
    if edge.reset != 0 {
        out.push(edge.reset);
    }
    out.extend(edge.lower.iter().flatten());
    out.extend(edge.upper.iter().flatten());
    out
}

pub fn encode(sheet: &Sheet) -> Vec<u8> {
    let mut out = vec![sheet.edition.number(), sheet.locations.len() as u8, sheet.clocks.len() as u8, sheet.edges.len() as u8];
    for location in &sheet.locations {
        put_location(&mut out, location);
    }
    for edge in &sheet.edges {
        out.extend(edge_record(sheet.edition, edge));
    }
    out
}
