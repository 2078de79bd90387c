//! Writing a sheet, with the places of its records and fields.

use crate::reading::edition::Edition;
use crate::reading::fields::{edge_bits, location_bits, Field};
use crate::reading::sheet::{Edge, Location, Sheet};
use std::ops::Range;

#[derive(Default)]
pub struct Written {
    pub edition: Edition,
    pub bytes: Vec<u8>,
    /// Where each record begins.
    pub records: Vec<usize>,
    /// Where each field begins.
    pub fields: Vec<(usize, Field)>,
    /// Where the source byte of each edge stands; the target byte follows it.
    pub ends: Vec<usize>,
}

fn price(value: i64) -> Option<i64> {
    (value != 0).then_some(value)
}

fn location_value(location: &Location, field: Field) -> Option<i64> {
    match field {
        Field::Cost => price(location.cost),
        Field::Reward => price(location.reward),
        Field::Upper(clock) => Some(i64::from(location.upper[clock])),
        _ => unreachable!("a location has no other field"),
    }
}

pub fn edge_value(edge: &Edge, field: Field) -> Option<i64> {
    match field {
        Field::Cost => price(edge.cost),
        Field::Reward => price(edge.reward),
        Field::Mask => price(i64::from(edge.mask)),
        Field::Lower(clock) => edge.lower[clock].map(i64::from),
        Field::Upper(clock) => edge.upper[clock].map(i64::from),
    }
}

/// The value of each bit's field, none for clocks that the sheet has not.
fn values(bits: &[Field], clocks: usize, of: impl Fn(Field) -> Option<i64>) -> Vec<Option<i64>> {
    bits.iter().map(|&field| if field.is_permitted(clocks) { of(field) } else { None }).collect()
}

fn map_of(values: &[Option<i64>]) -> u16 {
    (0..values.len()).filter(|&bit| values[bit].is_some()).map(|bit| 1 << bit).sum()
}

impl Written {
    /// The bytes of the record at a place, counted from the first location.
    pub fn record(&self, place: usize) -> Range<usize> {
        self.records[place]..self.records.get(place + 1).copied().unwrap_or(self.bytes.len())
    }

    fn fields(&mut self, values: &[Option<i64>], bits: &[Field]) {
        for (value, &field) in values.iter().zip(bits) {
            if let Some(value) = value {
                self.fields.push((self.bytes.len(), field));
                self.bytes.extend(&value.to_le_bytes()[..field.width()]);
            }
        }
    }
}

pub fn write(sheet: &Sheet) -> Written {
    let mut written = Written { edition: sheet.edition, ..Written::default() };
    let counts = [sheet.locations.len(), sheet.clocks, sheet.edges.len()];
    let (location_bits, edge_bits) = (location_bits(sheet.edition), edge_bits(sheet.edition));
    written.bytes.push(sheet.edition.byte());
    written.bytes.extend(counts.map(|count| count as u8));
    for location in &sheet.locations {
        let values = values(&location_bits, sheet.clocks, |field| location_value(location, field));
        written.records.push(written.bytes.len());
        written.bytes.push(map_of(&values) as u8);
        written.fields(&values, &location_bits);
    }
    for edge in &sheet.edges {
        let values = values(&edge_bits, sheet.clocks, |field| edge_value(edge, field));
        written.records.push(written.bytes.len());
        written.bytes.extend(map_of(&values).to_le_bytes());
        written.ends.push(written.bytes.len());
        written.bytes.extend([edge.source as u8, edge.target as u8]);
        written.fields(&values, &edge_bits);
    }
    written
}
