//! Faults planted in what the editions lay down for sheets.

use crate::library::marked::Buffers;
use crate::reading::edition::Edition;
use crate::reading::sheet::{read_records, Edge, Sheet, LONGEST_SHEET};
use crate::reading::write::write;
use planner::calls::{self, PlanNumbers};

#[derive(Clone, Copy, Debug, PartialEq)]
pub enum EditionFault {
    /// The check knows edition 1 only.
    OnlyFirst,
    /// The check takes edition 3 for edition 2.
    Third,
    /// The check asks 3 of edition 2 where there is no location.
    NoLocation,
    /// The check passes four clocks in edition 1.
    FourClocks,
    /// The check passes no mask from 8 on.
    Mask,
    /// The check has the upper guards of edition 2 from bit 6 on.
    UpperGuards,
    /// The check reads edition 2 with up to three clocks by the maps of edition 1.
    MapsOfFirst,
    /// The check passes bits 6 and 7 of a location's map.
    LocationBits,
    /// The check passes bits 11 to 15 of an edge's map.
    EdgeBits,
    /// The check passes 657 bytes.
    Longer,
    /// The check passes 580 bytes at most.
    Shorter,
    /// The check passes 580 bytes of edition 1 at most.
    ShorterFirst,
    /// The ratio of edition 2 with up to three clocks is higher by 1.
    Ratio,
    /// A plan does not reset clock 3.
    Reset,
    /// A plan has no lower guard of clock 3.
    LowerGuard,
    /// A plan has each upper guard of edition 2 at the next clock, and that of the last at the first.
    NextClock,
}

pub const EDITION_FAULTS: [(&str, EditionFault); 16] = [
    ("edition-only-first", EditionFault::OnlyFirst),
    ("edition-third", EditionFault::Third),
    ("edition-no-location", EditionFault::NoLocation),
    ("edition-four-clocks", EditionFault::FourClocks),
    ("edition-mask", EditionFault::Mask),
    ("edition-upper-guards", EditionFault::UpperGuards),
    ("edition-maps-of-first", EditionFault::MapsOfFirst),
    ("edition-location-bits", EditionFault::LocationBits),
    ("edition-edge-bits", EditionFault::EdgeBits),
    ("edition-longer", EditionFault::Longer),
    ("edition-shorter", EditionFault::Shorter),
    ("edition-shorter-first", EditionFault::ShorterFirst),
    ("edition-ratio", EditionFault::Ratio),
    ("edition-reset", EditionFault::Reset),
    ("edition-lower-guard", EditionFault::LowerGuard),
    ("edition-next-clock", EditionFault::NextClock),
];

/// What the library checks with another first byte.
fn check_as(edition: Edition, sheet: &[u8]) -> u8 {
    let mut sheet = sheet.to_vec();
    sheet[0] = edition.byte();
    calls::check(&sheet)
}

/// Whether the library passes the sheet once these bits of some byte are cleared.
fn passes_without(sheet: &[u8], bits: u8) -> bool {
    let cleared = |at: usize| {
        let mut sheet = sheet.to_vec();
        sheet[at] &= !bits;
        sheet
    };
    (4..sheet.len()).any(|at| sheet[at] & bits != 0 && calls::check(&cleared(at)) == 0)
}

fn some_edge(sheet: &[u8], like: impl Fn(&Sheet, &Edge) -> bool) -> bool {
    let (sheet, _) = read_records(sheet).expect("the library passes questions 2 to 10");
    sheet.edges.iter().any(|edge| like(&sheet, edge))
}

/// Whether the bytes say edition 2 and up to three clocks.
fn second_with_few(sheet: &[u8]) -> bool {
    sheet[0] == 2 && sheet[2] <= 3
}

impl EditionFault {
    /// What the check answers with the fault where the library answered this.
    pub fn checked(self, sheet: &[u8], refusal: u8) -> u8 {
        let (first, second) = (Edition::First, Edition::Second);
        match (self, refusal) {
            (EditionFault::Longer, 2) if sheet.len() == LONGEST_SHEET + 1 => {
                match calls::check(&sheet[..LONGEST_SHEET]) {
                    0 => 10,
                    refusal => refusal,
                }
            }
            (_, 2) => 2,
            (EditionFault::Shorter, _) if sheet.len() > 580 => 2,
            (EditionFault::ShorterFirst, _) if sheet.len() > 580 && sheet[0] == 1 => 2,
            (EditionFault::OnlyFirst, _) if sheet[0] == 2 => 3,
            (EditionFault::Third, 3) if sheet[0] == 3 => check_as(second, sheet),
            (EditionFault::NoLocation, 4) if sheet[0] == 2 && sheet[1] == 0 => 3,
            (EditionFault::FourClocks, 4) if sheet[2] == 4 => check_as(second, sheet),
            (EditionFault::MapsOfFirst, 0) if second_with_few(sheet) => check_as(first, sheet),
            (EditionFault::LocationBits, 6) if passes_without(sheet, 0b1100_0000) => 0,
            (EditionFault::EdgeBits, 6) if passes_without(sheet, 0b1111_1000) => 0,
            (EditionFault::Mask, 0) if some_edge(sheet, |_, edge| edge.mask >= 8) => 8,
            (EditionFault::UpperGuards, 0) if sheet[0] == 2 => {
                let last = |sheet: &Sheet, edge: &Edge| edge.upper[sheet.clocks - 1].is_some();
                if some_edge(sheet, last) {
                    6
                } else {
                    0
                }
            }
            _ => refusal,
        }
    }

    /// Plans a sheet that the library accepts, with the fault.
    pub fn plan(self, sheet: &[u8], buffers: &mut Buffers, numbers: &mut PlanNumbers) -> u8 {
        if self == EditionFault::Ratio && second_with_few(sheet) {
            numbers.p += numbers.q;
        }
        let (mut changed, _) = read_records(sheet).expect("the library accepts it");
        let Sheet { edition, clocks, .. } = changed;
        let change = |edge: &mut Edge| match self {
            EditionFault::Reset => edge.mask &= 7,
            EditionFault::LowerGuard => edge.lower[3] = None,
            EditionFault::NextClock if edition == Edition::Second => {
                edge.upper[..clocks].rotate_right(1)
            }
            _ => {}
        };
        changed.edges.iter_mut().for_each(change);
        let bytes = write(&changed).bytes;
        if bytes == sheet {
            return 0;
        }
        let Buffers { nodes, potentials, steps } = buffers;
        calls::plan(&bytes, nodes, potentials, steps, numbers)
    }
}
