//! What is known of the records beside their parts in the sheet, and what a mistake leaves open.

use super::cursor::Cursor;
use super::fault::Place;
use super::{Parser, Record};
use crate::sheet::limits;

/// A name with its place.
pub(super) type Named = (String, Place);

#[derive(Default)]
pub(super) struct LocationNote {
    pub line: usize,
    pub place: Place,
    /// For each clock, whether a mistake leaves its bound open.
    pub open: [bool; limits::CLOCKS],
    /// For each clock, where its bound stands.
    pub bounds: [(usize, Place); limits::CLOCKS],
}

#[derive(Default)]
pub(super) struct EdgeNote {
    pub line: usize,
    pub place: Place,
    /// Source and target, where its line is in order.
    pub ends: Option<[Named; 2]>,
    /// Whether a mistake leaves some of it open.
    pub open: bool,
}

impl Parser {
    /// A line of the open record is faulty: what it gives to an edge is open, or to a location the bounds of clocks that it names.
    pub(super) fn doubt(&mut self, cursor: &Cursor) {
        match self.record {
            Record::Location(i) => {
                for (open, clock) in self.locations[i].open.iter_mut().zip(&self.sheet.clocks) {
                    *open |= cursor.names(clock);
                }
            }
            Record::Edge(i) => self.edges[i].open = true,
            Record::None | Record::Lost => {}
        }
    }

    /// Anything may be missing from the open record.
    pub(super) fn doubt_all(&mut self) {
        match self.record {
            Record::Location(i) => self.locations[i].open = [true; limits::CLOCKS],
            Record::Edge(i) => self.edges[i].open = true,
            Record::None | Record::Lost => {}
        }
    }

    /// A line that does not belong where it stands: perhaps a record began before it.
    pub(super) fn astray(&mut self) {
        self.doubt_all();
        self.record = Record::Lost;
        self.given.clear();
    }

    /// A line of which it is not known what it is: perhaps it begins a record.
    pub(super) fn unread(&mut self) {
        self.astray();
        self.locations_lost = true;
        self.start_lost |= self.sheet.locations.is_empty();
        self.clocks_lost |= self.sheet.clocks.is_empty();
    }
}
