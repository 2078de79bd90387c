//! Node numbers in words. The bytes of a sheet hold no names, so locations are told by their numbers.

use crate::nodes::{at_corner, node};
use crate::sheet::edition::Edition;

/// The edition that the first byte names, if it names one.
pub fn edition(sheet: &[u8]) -> Option<Edition> {
    sheet.first().and_then(|number| Edition::of(*number))
}

/// The location, and the value of each clock at the corner point; the third byte of a sheet counts its clocks.
pub fn place(sheet: &[u8], number: u64) -> String {
    let edition = edition(sheet).unwrap_or_default();
    let clocks = sheet.get(2).map_or(edition.clocks(), |count| usize::from(*count).min(edition.clocks()));
    let read = node(edition, number);
    let values: Vec<_> = (0..clocks).map(|j| at_corner(&read, j).to_string()).collect();
    format!("location {}, clocks at {}", read.location, values.join(" "))
}

pub fn node_words(sheet: &[u8], number: u64) -> String {
    format!("node {number} ({})", place(sheet, number))
}
