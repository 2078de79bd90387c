//! Sheets with an edge entered twice, alone and beside another fault, and with edges that are nearly
//! the same.

use crate::random::Random;
use crate::reading::fields::{edge_bits, longest_edge, Field};
use crate::reading::sheet::{read_records, Edge, Sheet, LONGEST_SHEET};
use crate::reading::write::{edge_value, write, Written};
use crate::sheets::built::long;
use crate::sheets::damage::{close_start, drop_bound};
use crate::sheets::generate::{sheet, Shape};
use crate::sheets::shapes::shorter_shape;

/// Copies an edge over the one at this distance behind it. The places of both.
pub fn paste(random: &mut Random, edges: &mut [Edge], distance: usize) -> [usize; 2] {
    let first = random.below(edges.len() - distance);
    edges[first + distance] = edges[first].clone();
    [first, first + distance]
}

/// The fields that an edge of the sheet may have, in the order of their bits.
fn edge_fields(sheet: &Sheet) -> Vec<Field> {
    let mut fields = edge_bits(sheet.edition);
    fields.retain(|field| field.is_permitted(sheet.clocks));
    fields
}

/// Gives both edges the same fields, few or many, so that records of every length come up.
fn refit(random: &mut Random, sheet: &mut Sheet, both: [usize; 2]) {
    let share = random.below(101) as u64;
    for field in edge_fields(sheet) {
        let value = edge_value(&sheet.edges[both[0]], field).unwrap_or(1);
        let value = random.percent(share).then_some(value);
        both.iter().for_each(|&place| sheet.edges[place].put(field, value));
    }
}

/// A sheet with one edge entered twice, at any distance that two edges can have.
pub fn twice(random: &mut Random, shape: &Shape) -> Sheet {
    let distance = 1 + random.below(31);
    let edges = distance + 1 + random.below(32 - distance);
    let mut made = sheet(random, &Shape { edges, ..*shape });
    let both = paste(random, &mut made.edges, distance);
    if random.percent(30) {
        refit(random, &mut made, both);
    }
    made
}

/// A fault that another question of the check finds. One in an edge is laid in each of these.
pub fn lay_fault(random: &mut Random, sheet: &Written, edges: &[usize]) -> Vec<u8> {
    let mut bytes = sheet.bytes.clone();
    let last_byte = longest_edge(sheet.edition) - 1;
    // The second byte of an edge's map with the first bit that means no field.
    let bit_beyond = 1 << (edge_bits(sheet.edition).len() - 8);
    match random.within(2, 11) {
        2 => bytes.resize(LONGEST_SHEET + 1, 0),
        3 => bytes[0] = random.pick(&[0, 3]),
        4 => bytes[3] = 33,
        5 => bytes.truncate(bytes.len() - 1 - random.below(3)),
        6 => edges.iter().for_each(|&at| bytes[at + 1] |= bit_beyond),
        7 => drop_bound(random, &mut bytes, &sheet.records),
        8 => edges.iter().for_each(|&at| bytes[at + last_byte] = 26),
        9 => edges.iter().for_each(|&at| bytes[at + 2] = bytes[1]),
        10 => bytes.push(0),
        _ => close_start(&mut bytes, sheet),
    }
    bytes
}

/// An edge entered twice and one fault more; where the fault is in an edge, then in both or in one
/// behind them.
pub fn twice_and_fault(random: &mut Random) -> Vec<u8> {
    let shape = shorter_shape(random);
    let mut made = long(random, &shape);
    let others = made.edges.len() - 1;
    let distance = 1 + random.below(others - 1);
    let both = paste(random, &mut made.edges[..others], distance);
    let written = write(&made);
    let edges = &written.records[made.locations.len()..];
    if random.percent(50) {
        lay_fault(random, &written, &both.map(|place| edges[place]))
    } else {
        lay_fault(random, &written, &edges[others..])
    }
}

/// The places of two fields of one width, and a value that both admit.
fn two_fields(random: &mut Random, fields: &[Field], clocks: usize) -> (usize, usize, i64) {
    if random.percent(20) {
        return (0, 1, random.within(1, 10_000));
    }
    let last = fields.len() - 1;
    let low = 2 + random.below(last - 2);
    let high = low + 1 + random.below(last - low);
    let most = if fields[low] == Field::Mask { (1 << clocks) - 1 } else { 25 };
    (low, high, random.within(1, most))
}

/// Gives both edges the same bytes behind different maps: the first has a field where the second has
/// another, and neither has one between these.
fn other_map(random: &mut Random, sheet: &mut Sheet, [first, second]: [usize; 2]) {
    let fields = edge_fields(sheet);
    let (low, high, value) = two_fields(random, &fields, sheet.clocks);
    for (place, &field) in fields.iter().enumerate().take(high + 1).skip(low) {
        sheet.edges[first].put(field, (place == low).then_some(value));
        sheet.edges[second].put(field, (place == high).then_some(value));
    }
}

/// Puts another byte there, one with which the records can be read if there is such a byte.
fn change(random: &mut Random, bytes: &mut [u8], at: usize) {
    let (old, turn) = (bytes[at], random.below(255));
    for place in 0..255 {
        bytes[at] = old.wrapping_add(1 + ((turn + place) % 255) as u8);
        if read_records(bytes).is_ok() {
            return;
        }
    }
}

/// Two edges that are the same but for a byte, or but for their maps.
pub fn alike(random: &mut Random) -> Vec<u8> {
    let shape = shorter_shape(random);
    let mut made = long(random, &shape);
    let distance = 1 + random.below(made.edges.len() - 1);
    let mut both = paste(random, &mut made.edges, distance);
    if random.percent(50) {
        both.reverse();
    }
    match random.below(longest_edge(made.edition)) {
        0 if random.percent(80) => other_map(random, &mut made, both),
        1 if random.percent(80) => made.edges[both[0]].put(Field::Upper(made.clocks - 1), None),
        _ => {
            if random.percent(60) {
                refit(random, &mut made, both);
            }
            let mut written = write(&made);
            let record = written.record(made.locations.len() + both[1]);
            let at = record.start + random.below(record.len());
            change(random, &mut written.bytes, at);
            return written.bytes;
        }
    }
    write(&made).bytes
}

/// A sheet of the greatest length whose edges differ in their last two bytes only, some with one
/// entered twice.
pub fn all_alike(random: &mut Random, shape: &Shape) -> Sheet {
    let mut made = long(random, shape);
    let first = made.edges[0].clone();
    for (place, edge) in made.edges.iter_mut().enumerate() {
        *edge = first.clone();
        edge.upper[shape.clocks - 2] = Some(25 - (place / 26) as u8);
        edge.upper[shape.clocks - 1] = Some((place % 26) as u8);
    }
    if random.percent(30) {
        let distance = 1 + random.below(made.edges.len() - 1);
        paste(random, &mut made.edges, distance);
    }
    made
}
