//! From bytes to a sheet, by questions 2 to 11 and 17.

use super::edition::{Edition, BOUNDS, LOWER_GUARDS};
use super::limits;
use super::pairs::equal_pair;
use super::reader::Reader;
use super::refusal::Refusal;
use super::{Edge, Location, Sheet};

impl Reader<'_> {
    fn location(&mut self, i: usize) -> Result<Location, Refusal> {
        self.record = format!("location {i}");
        let start = self.at;
        let bounds = clock_bits(BOUNDS, self.clocks);
        let map = self.map(1, 3 | bounds)?;
        self.needs(field_bytes(map), "its fields")?;
        let missing = bounds & !map;
        if missing != 0 {
            let clock = missing.trailing_zeros() as usize - BOUNDS;
            return self.refuse(7, start, format!("has no bound for clock {clock}"), "a bound for each clock");
        }
        let (cost, reward) = self.prices(map)?;
        let upper = self.bytes_of(map, BOUNDS, 0, "upper")?;
        Ok(Location { name: format!("l{i}"), cost, reward, upper })
    }

    fn edge(&mut self, i: usize, locations: usize) -> Result<Edge, Refusal> {
        self.record = format!("edge {i}");
        let upper_guards = self.edition.upper_guards();
        let map = self.map(2, 7 | clock_bits(LOWER_GUARDS, self.clocks) | clock_bits(upper_guards, self.clocks))?;
        self.needs(2 + field_bytes(map), "its source, target and fields")?;
        let ends = self.at;
        let (source, target) = (usize::from(self.byte()), usize::from(self.byte()));
        let (cost, reward) = self.prices(map)?;
        let reset = if map & 4 != 0 { self.byte() } else { 0 };
        let all = (1 << self.clocks) - 1;
        if map & 4 != 0 && (reset == 0 || reset > all) {
            return self.refuse(8, self.at - 1, format!("has reset mask {reset}"), format!("1 to {all}"));
        }
        let lower = self.bytes_of(map, LOWER_GUARDS, 1, "lower")?;
        let upper = self.bytes_of(map, upper_guards, 0, "upper")?;
        for (at, end, what) in [(ends, source, "source"), (ends + 1, target, "target")] {
            if end >= locations {
                return self.refuse(9, at, format!("has {what} {end}"), format!("0 to {}", locations - 1));
            }
        }
        Ok(Edge { name: format!("e{i}"), source, target, cost, reward, reset, lower, upper })
    }
}

fn clock_bits(first: usize, clocks: usize) -> u16 {
    ((1 << clocks) - 1) << first
}

/// Two bytes for cost and reward, one for each other field.
fn field_bytes(map: u16) -> usize {
    (map.count_ones() + (map & 3).count_ones()) as usize
}

/// Questions 2 to 4: the edition, and the counts of locations, clocks and edges.
fn head(reader: &mut Reader) -> Result<(Edition, [usize; 3]), Refusal> {
    let length = reader.bytes.len();
    if !limits::LENGTHS.contains(&length) {
        return reader.refuse(2, length, format!("the sheet has {length} bytes"), "4 to 656 bytes");
    }
    let number = reader.byte();
    let Some(edition) = Edition::of(number) else {
        return reader.refuse(3, 0, format!("edition {number}"), "edition 1 or 2");
    };
    let clocks = format!("1 to {} in edition {number}", edition.clocks());
    let counts = [
        ("locations", 1..=limits::LOCATIONS, "1 to 12"),
        ("clocks", 1..=edition.clocks(), &clocks),
        ("edges", 0..=limits::EDGES, "0 to 32"),
    ];
    let mut found = [0; 3];
    for (slot, (what, range, expected)) in found.iter_mut().zip(counts) {
        *slot = usize::from(reader.byte());
        if !range.contains(slot) {
            return reader.refuse(4, reader.at - 1, format!("{slot} {what}"), expected);
        }
    }
    Ok((edition, found))
}

/// Question 17; of each edge the range of its bytes.
fn entered_once(reader: &Reader, edges: &[std::ops::Range<usize>]) -> Result<(), Refusal> {
    let records: Vec<_> = edges.iter().map(|edge| &reader.bytes[edge.clone()]).collect();
    match equal_pair(&records) {
        Some((first, second)) => {
            reader.refuse(17, edges[second].start, format!("edge {second} is equal to edge {first} in every byte"), "each edge once")
        }
        None => Ok(()),
    }
}

/// Question 11.
fn admits_zero(reader: &Reader, first: &Location) -> Result<(), Refusal> {
    let bounds = 5 + 2 * (usize::from(first.cost != 0) + usize::from(first.reward != 0));
    match first.upper.iter().position(|byte| *byte == Some(0)) {
        Some(j) => reader.refuse(11, bounds + j, format!("location 0 asks for clock {j} < 0"), "bounds that admit all clocks at 0"),
        None => Ok(()),
    }
}

/// The sheet that the bytes hold, with names made up.
pub fn decode(bytes: &[u8]) -> Result<Sheet, Refusal> {
    let mut reader = Reader { bytes, at: 0, record: String::new(), edition: Edition::First, clocks: 0 };
    let (edition, [locations, clocks, edges]) = head(&mut reader)?;
    (reader.edition, reader.clocks) = (edition, clocks);
    let names = ["x", "y", "z", "w"].iter().take(clocks).map(|name| name.to_string());
    let mut sheet = Sheet { edition, clocks: names.collect(), ..Sheet::default() };
    for i in 0..locations {
        sheet.locations.push(reader.location(i)?);
    }
    let mut places = Vec::new();
    for i in 0..edges {
        let start = reader.at;
        sheet.edges.push(reader.edge(i, locations)?);
        places.push(start..reader.at);
    }
    reader.record.clear();
    let left = bytes.len() - reader.at;
    if left > 0 {
        return reader.refuse(10, reader.at, format!("bytes after the last record: {left}"), "0");
    }
    entered_once(&reader, &places)?;
    admits_zero(&reader, &sheet.locations[0])?;
    Ok(sheet)
}
