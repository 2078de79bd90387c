//! Faults in the bytes of a sheet, one of each kind that questions 2 to 11 and 17 ask for.

use crate::random::Random;
use crate::reading::fields::Field;
use crate::reading::write::Written;
use crate::sheets::shapes::some_clocks;

fn put_bad_value(random: &mut Random, bytes: &mut [u8], at: usize, field: Field) {
    let clocks = u32::from(bytes[2]).min(7);
    let value: i64 = match field {
        Field::Cost => random.pick(&[0, 10_001, -10_001, 32_767, -32_768]),
        Field::Reward => random.pick(&[0, 10_001, 32_768, 65_535]),
        Field::Mask => random.pick(&[0, 1 << clocks, 255]),
        Field::Upper(_) => random.pick(&[26, 27, 128, 255]),
        Field::Lower(_) => random.pick(&[0, 26, 255]),
    };
    for (byte, new) in bytes[at..].iter_mut().zip(value.to_le_bytes()).take(field.width()) {
        *byte = new;
    }
}

fn header(random: &mut Random, bytes: &mut [u8]) {
    match random.below(5) {
        0 => bytes[0] = random.pick(&[0, 3, 255]),
        // 1 for 2, and 2 for 1
        1 => bytes[0] ^= 3,
        2 => bytes[1] = random.pick(&[0, 13, 14, 255]),
        3 => bytes[2] = random.pick(&[0, 4, 5, 255]),
        _ => bytes[3] = random.pick(&[33, 34, 255]),
    }
}

fn length(random: &mut Random, bytes: &mut Vec<u8>) {
    match random.below(6) {
        0 => bytes.truncate(random.below(5)),
        1 => bytes.resize(random.pick(&[655, 656, 657, 658, 1000, 70_000]), 0),
        2 => bytes.resize(random.within(579, 660) as usize, 0),
        3 => bytes.truncate(random.below(bytes.len() + 1)),
        4 => bytes.truncate(bytes.len().saturating_sub(1 + random.below(3))),
        _ => bytes.extend((0..1 + random.below(3)).map(|_| random.next() as u8)),
    }
}

fn counts(random: &mut Random, bytes: &mut [u8]) {
    let at = random.pick(&[1, 2, 3]);
    let more = random.percent(50);
    bytes[at] = if more { bytes[at].wrapping_add(1) } else { bytes[at].saturating_sub(1) };
}

fn map_bit(random: &mut Random, bytes: &mut [u8], records: &[usize]) {
    let at = random.pick(records);
    let bytes = &mut bytes[at..];
    let width = bytes.len().min(2);
    bytes[random.below(width)] ^= 1 << random.below(8);
}

/// Takes one bound of a location away, its bit and its byte.
pub fn drop_bound(random: &mut Random, bytes: &mut Vec<u8>, records: &[usize]) {
    let at = records[random.below(usize::from(bytes[1]))];
    let map = bytes[at];
    let clock = random.below(usize::from(bytes[2]));
    let before = map & ((4 << clock) - 1);
    let place = at + 1 + (before.count_ones() + (before & 3).count_ones()) as usize;
    bytes[at] &= !(4 << clock);
    if random.percent(80) {
        bytes.remove(place);
    }
}

fn bad_field(random: &mut Random, bytes: &mut [u8], fields: &[(usize, Field)]) {
    if !fields.is_empty() {
        let (at, field) = random.pick(fields);
        put_bad_value(random, bytes, at, field);
    }
}

fn bad_end(random: &mut Random, bytes: &mut [u8], ends: &[usize]) {
    if !ends.is_empty() {
        let at = random.pick(ends) + random.below(2);
        bytes[at] = random.pick(&[bytes[1], 12, 255]);
    }
}

/// Lets the start ask for clock 0 to be below 0.
pub fn close_start(bytes: &mut [u8], sheet: &Written) {
    let first = sheet.fields.iter().find(|field| field.1 == Field::Upper(0));
    bytes[first.expect("location 0 has a bound").0] = 0;
}

/// Enters an edge once more, behind all others.
fn paste(random: &mut Random, bytes: &mut Vec<u8>, sheet: &Written) {
    let edges = sheet.ends.len();
    if edges > 0 {
        bytes.extend_from_within(sheet.record(sheet.records.len() - 1 - random.below(edges)));
        bytes[3] = bytes[3].wrapping_add(1);
    }
}

/// A fault that leaves every place where it is.
fn in_place(random: &mut Random, bytes: &mut Vec<u8>, sheet: &Written) {
    match random.below(10) {
        0 => header(random, bytes),
        1 => counts(random, bytes),
        2 => map_bit(random, bytes, &sheet.records),
        3..=5 => bad_field(random, bytes, &sheet.fields),
        6 => bad_end(random, bytes, &sheet.ends),
        7 => close_start(bytes, sheet),
        8 => paste(random, bytes, sheet),
        _ => {
            let at = random.below(bytes.len());
            bytes[at] = random.next() as u8;
        }
    }
}

/// Several faults in one record, so that the order of its questions is seen.
fn in_one_record(random: &mut Random, bytes: &mut [u8], sheet: &Written) {
    let record = random.below(sheet.records.len());
    let range = sheet.record(record);
    let begin = range.start;
    let inside = |at: usize| range.contains(&at);
    let fields: Vec<_> = sheet.fields.iter().copied().filter(|field| inside(field.0)).collect();
    let ends: Vec<_> = sheet.ends.iter().copied().filter(|&at| inside(at)).collect();
    if random.percent(80) {
        bad_field(random, bytes, &fields);
    }
    if random.percent(80) {
        bad_end(random, bytes, &ends);
    }
    if random.percent(25) {
        map_bit(random, bytes, &[begin]);
    }
}

/// The sheet with one fault.
pub fn damage(random: &mut Random, sheet: &Written) -> Vec<u8> {
    let mut bytes = sheet.bytes.clone();
    match random.below(10) {
        0 | 1 => length(random, &mut bytes),
        2 => drop_bound(random, &mut bytes, &sheet.records),
        _ => in_place(random, &mut bytes, sheet),
    }
    bytes
}

/// The sheet with several faults, so that the order of the questions is seen.
pub fn damage_more(random: &mut Random, sheet: &Written) -> Vec<u8> {
    let mut bytes = sheet.bytes.clone();
    if random.percent(50) {
        in_one_record(random, &mut bytes, sheet);
    } else {
        in_place(random, &mut bytes, sheet);
        in_place(random, &mut bytes, sheet);
    }
    let counts_stand = bytes[1..4] == sheet.bytes[1..4];
    match random.below(4) {
        0 => length(random, &mut bytes),
        1 if counts_stand => drop_bound(random, &mut bytes, &sheet.records),
        _ => {}
    }
    bytes
}

/// Bytes that begin like a sheet, or not even that.
pub fn noise(random: &mut Random) -> Vec<u8> {
    let length = if random.percent(20) { random.below(6) } else { random.below(670) };
    let mut bytes: Vec<u8> = (0..length).map(|_| random.next() as u8).collect();
    let (edition, clocks) = some_clocks(random);
    let counts = [random.within(1, 12) as u8, clocks as u8, random.below(33) as u8];
    let header = [edition.byte(), counts[0], counts[1], counts[2]];
    if random.percent(85) {
        bytes.iter_mut().zip(header).for_each(|(byte, new)| *byte = new);
    }
    if random.percent(50) {
        bytes.iter_mut().skip(4).for_each(|byte| *byte &= 7);
    }
    bytes
}
