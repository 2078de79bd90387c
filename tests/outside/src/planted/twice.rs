//! Faults planted in the answers to question 17.

use crate::coverage::alike::{only_last_bytes_differ, only_maps_differ, pairs};
use crate::reading::sheet::{read, read_records};

#[derive(Clone, Copy, Debug, PartialEq)]
pub enum Twice {
    /// The check passes an edge entered twice.
    Missed,
    /// The check compares each edge with the next one only.
    Neighbours,
    /// The check leaves the last bytes of two edges out.
    LastByte,
    /// The check leaves the maps of two edges out.
    Map,
    /// The check asks 17 after 11.
    Late,
    /// The check asks 17 before 10.
    Early,
    /// A single step answers 16 in place of 17.
    Step,
    /// A plan passes an edge entered twice.
    Plan,
    /// A plan that is refused with 17 sets every entry of the buffers to 0.
    Clear,
}

pub const TWICE_FAULTS: [(&str, Twice); 9] = [
    ("twice-missed", Twice::Missed),
    ("twice-neighbours", Twice::Neighbours),
    ("twice-last-byte", Twice::LastByte),
    ("twice-map", Twice::Map),
    ("twice-late", Twice::Late),
    ("twice-early", Twice::Early),
    ("twice-step", Twice::Step),
    ("twice-plan", Twice::Plan),
    ("twice-clear", Twice::Clear),
];

fn some_pair(sheet: &[u8], like: impl Fn(&[u8], &[u8], usize) -> bool) -> bool {
    let (_, records) = read_records(sheet).expect("the library passes questions 2 to 10");
    let found = pairs(&records).any(|(a, b, distance)| like(a, b, distance));
    found
}

fn starts_closed(sheet: &[u8]) -> bool {
    let (sheet, _) = read_records(sheet).expect("the library passes questions 2 to 10");
    !sheet.start_admits_zero()
}

fn twice_before_the_rest(sheet: &[u8]) -> bool {
    (0..sheet.len()).any(|end| read(&sheet[..end]).err() == Some(17))
}

impl Twice {
    /// What the check answers with the fault where the library answered this.
    pub fn checked(self, sheet: &[u8], refusal: u8) -> u8 {
        match (self, refusal) {
            (Twice::Missed, 17) => 0,
            (Twice::Neighbours, 17) if !some_pair(sheet, |a, b, far| a == b && far == 1) => 0,
            (Twice::LastByte, 0) if some_pair(sheet, |a, b, _| only_last_bytes_differ(a, b)) => 17,
            (Twice::Map, 0) if some_pair(sheet, |a, b, _| only_maps_differ(a, b)) => 17,
            (Twice::Late, 17) if starts_closed(sheet) => 11,
            (Twice::Early, 10) if twice_before_the_rest(sheet) => 17,
            _ => refusal,
        }
    }
}
