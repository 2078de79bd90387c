//! A sheet, and its reading: questions 2 to 11 and 17 of the specification.

use crate::reading::edition::{Edition, MOST_CLOCKS};
use crate::reading::fields::{edge_bits, location_bits, permitted, Field};
use std::collections::HashSet;

/// The bytes of the longest sheet.
pub const LONGEST_SHEET: usize = 656;

#[derive(Clone, Default)]
pub struct Location {
    pub cost: i64,
    pub reward: i64,
    pub upper: [u8; MOST_CLOCKS],
}

#[derive(Clone, Default, PartialEq)]
pub struct Edge {
    pub source: usize,
    pub target: usize,
    pub cost: i64,
    pub reward: i64,
    pub mask: u8,
    pub lower: [Option<u8>; MOST_CLOCKS],
    pub upper: [Option<u8>; MOST_CLOCKS],
}

#[derive(Clone, Default)]
pub struct Sheet {
    pub edition: Edition,
    pub clocks: usize,
    pub locations: Vec<Location>,
    pub edges: Vec<Edge>,
}

struct Reader<'a> {
    rest: &'a [u8],
    clocks: usize,
}

/// The fields of a record that are there, with their values.
type Values = Vec<(Field, i64)>;

impl<'a> Reader<'a> {
    fn take(&mut self, count: usize) -> Result<&'a [u8], u8> {
        if self.rest.len() < count {
            return Err(5);
        }
        let (head, tail) = self.rest.split_at(count);
        self.rest = tail;
        Ok(head)
    }

    fn map(&mut self, bytes: usize, permitted: u16) -> Result<u16, u8> {
        let read = self.take(bytes)?;
        let map = read.iter().rev().fold(0u16, |sum, &byte| sum << 8 | u16::from(byte));
        if map & !permitted != 0 {
            return Err(6);
        }
        Ok(map)
    }

    /// Takes the fields that the map calls for, without a look at their values.
    fn fields(&mut self, map: u16, bits: &[Field]) -> Result<Values, u8> {
        let mut values = Vec::new();
        for (bit, &field) in bits.iter().enumerate() {
            if map >> bit & 1 == 1 {
                let bytes = self.take(field.width())?;
                let value = match field {
                    Field::Cost => i64::from(i16::from_le_bytes([bytes[0], bytes[1]])),
                    Field::Reward => i64::from(u16::from_le_bytes([bytes[0], bytes[1]])),
                    _ => i64::from(bytes[0]),
                };
                values.push((field, value));
            }
        }
        Ok(values)
    }

    fn in_range(&self, values: &Values) -> Result<(), u8> {
        if values.iter().all(|(field, value)| field.admits(*value, self.clocks)) {
            return Ok(());
        }
        Err(8)
    }

    fn location(&mut self, bits: &[Field]) -> Result<Location, u8> {
        let map = self.map(1, permitted(bits, self.clocks))?;
        let values = self.fields(map, bits)?;
        let bounds = values.iter().filter(|(field, _)| matches!(field, Field::Upper(_)));
        if bounds.count() < self.clocks {
            return Err(7);
        }
        self.in_range(&values)?;
        let mut location = Location::default();
        for (field, value) in values {
            match field {
                Field::Cost => location.cost = value,
                Field::Reward => location.reward = value,
                Field::Upper(clock) => location.upper[clock] = value as u8,
                _ => unreachable!("a location has no other field"),
            }
        }
        Ok(location)
    }

    fn edge(&mut self, bits: &[Field], locations: usize) -> Result<Edge, u8> {
        let map = self.map(2, permitted(bits, self.clocks))?;
        let ends = self.take(2)?;
        let values = self.fields(map, bits)?;
        self.in_range(&values)?;
        let (source, target) = (usize::from(ends[0]), usize::from(ends[1]));
        if source >= locations || target >= locations {
            return Err(9);
        }
        let mut edge = Edge { source, target, ..Edge::default() };
        values.into_iter().for_each(|(field, value)| edge.put(field, Some(value)));
        Ok(edge)
    }
}

impl Edge {
    /// Puts the value in the field, or takes the field away.
    pub fn put(&mut self, field: Field, value: Option<i64>) {
        let byte = value.map(|value| value as u8);
        match field {
            Field::Cost => self.cost = value.unwrap_or(0),
            Field::Reward => self.reward = value.unwrap_or(0),
            Field::Mask => self.mask = byte.unwrap_or(0),
            Field::Lower(clock) => self.lower[clock] = byte,
            Field::Upper(clock) => self.upper[clock] = byte,
        }
    }
}

impl Sheet {
    pub fn start_admits_zero(&self) -> bool {
        !self.locations[0].upper[..self.clocks].contains(&0)
    }
}

/// The sheet with the bytes of each edge record, or the number of the first of questions 2 to 10
/// answered no.
pub fn read_records(bytes: &[u8]) -> Result<(Sheet, Vec<&[u8]>), u8> {
    if bytes.len() < 4 || bytes.len() > LONGEST_SHEET {
        return Err(2);
    }
    let edition = Edition::of_byte(bytes[0]).ok_or(3)?;
    let [locations, clocks, edges] = [bytes[1], bytes[2], bytes[3]].map(usize::from);
    let few_clocks = (1..=edition.most_clocks()).contains(&clocks);
    if !(1..=12).contains(&locations) || !few_clocks || edges > 32 {
        return Err(4);
    }
    let (location_bits, edge_bits) = (location_bits(edition), edge_bits(edition));
    let mut reader = Reader { rest: &bytes[4..], clocks };
    let mut sheet = Sheet { edition, clocks, ..Sheet::default() };
    let mut records = Vec::new();
    for _ in 0..locations {
        sheet.locations.push(reader.location(&location_bits)?);
    }
    for _ in 0..edges {
        let before = reader.rest;
        sheet.edges.push(reader.edge(&edge_bits, locations)?);
        records.push(&before[..before.len() - reader.rest.len()]);
    }
    if !reader.rest.is_empty() {
        return Err(10);
    }
    Ok((sheet, records))
}

/// The sheet, or the number of the first of questions 2 to 10, 17 and 11 answered no.
pub fn read(bytes: &[u8]) -> Result<Sheet, u8> {
    let (sheet, records) = read_records(bytes)?;
    let different: HashSet<&[u8]> = records.iter().copied().collect();
    if different.len() < records.len() {
        return Err(17);
    }
    if !sheet.start_admits_zero() {
        return Err(11);
    }
    Ok(sheet)
}
