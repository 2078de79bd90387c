//! Variants of a sheet that try the borders of what its edition lays down.

use crate::random::Random;
use crate::reading::edition::Edition;
use crate::reading::fields::{edge_bits, location_bits, permitted};
use crate::reading::sheet::{Sheet, LONGEST_SHEET};
use crate::reading::write::Written;

#[derive(Clone, Copy)]
pub enum Record {
    Location,
    Edge,
}

impl Record {
    /// The bits of the record's map that may not be set in a sheet with this number of clocks.
    pub fn stray_bits(self, edition: Edition, clocks: usize) -> Vec<usize> {
        let (bits, width) = match self {
            Record::Location => (location_bits(edition), 8),
            Record::Edge => (edge_bits(edition), 16),
        };
        let map = permitted(&bits, clocks);
        (0..width).filter(|bit| map >> bit & 1 == 0).collect()
    }

    pub fn named(self) -> &'static str {
        match self {
            Record::Location => "a location",
            Record::Edge => "an edge",
        }
    }
}

/// The bytes of the sheet behind the first byte of the other edition.
pub fn other_edition(written: &Written) -> Vec<u8> {
    let mut bytes = written.bytes.clone();
    bytes[0] = written.edition.other().byte();
    bytes
}

/// The sheet with one byte more than any sheet may have.
pub fn too_long(written: &Written) -> Vec<u8> {
    let mut bytes = written.bytes.clone();
    bytes.resize(LONGEST_SHEET + 1, 0);
    bytes
}

/// The sheet with a bit set in the map of some record that may not be: that of a clock which the
/// sheet has not, or one that its edition gives no meaning.
pub fn with_stray_bit(
    random: &mut Random,
    sheet: &Sheet,
    written: &Written,
) -> (Vec<u8>, Record, usize) {
    let locations = sheet.locations.len();
    let (record, place) = if !sheet.edges.is_empty() && random.percent(50) {
        (Record::Edge, locations + random.below(sheet.edges.len()))
    } else {
        (Record::Location, random.below(locations))
    };
    let bit = random.pick(&record.stray_bits(sheet.edition, sheet.clocks));
    let mut bytes = written.bytes.clone();
    bytes[written.records[place] + bit / 8] |= 1 << (bit % 8);
    (bytes, record, bit)
}
