//! Faults planted in the layout of node numbers: of those that a step takes and answers, and of those
//! that a plan lists.

use crate::judges::numbers::unnamed_bits;
use crate::library::marked::Buffers;
use crate::reading::edition::Edition;
use crate::reading::region::node_of;
use crate::reading::sheet::{read, Sheet};
use planner::calls::{PlanNumbers, StepNumbers};

#[derive(Clone, Copy, Debug, PartialEq)]
pub enum LayoutFault {
    /// A step takes the low 32 bits of a number.
    Taken32,
    /// A step answers the low 32 bits of a number.
    Answered32,
    /// A plan lists the low 32 bits of each number.
    Listed32,
    /// A step takes the class of clock 3 from two bits.
    FourthClass,
    /// A step takes the location of edition 2 from bit 20 on.
    Location20,
    /// A step does not look at the bits above the location.
    BitsAbove,
    /// A step does not look at the bits of clocks that the sheet has not.
    BitsOfClocks,
    /// A step answers numbers of edition 1 where a sheet of edition 2 has up to three clocks.
    AnsweredAsFirst,
    /// A plan lists numbers of edition 1 where a sheet of edition 2 has up to three clocks.
    ListedAsFirst,
}

pub const LAYOUT_FAULTS: [(&str, LayoutFault); 9] = [
    ("layout-taken-32", LayoutFault::Taken32),
    ("layout-answered-32", LayoutFault::Answered32),
    ("layout-listed-32", LayoutFault::Listed32),
    ("layout-fourth-class", LayoutFault::FourthClass),
    ("layout-location-20", LayoutFault::Location20),
    ("layout-bits-above", LayoutFault::BitsAbove),
    ("layout-bits-of-clocks", LayoutFault::BitsOfClocks),
    ("layout-answered-as-first", LayoutFault::AnsweredAsFirst),
    ("layout-listed-as-first", LayoutFault::ListedAsFirst),
];

/// The low 32 bits.
const LOW: u64 = u32::MAX as u64;

/// The number that the node has in edition 1, where the sheet is of edition 2 and that is possible.
fn as_first(sheet: &Sheet, number: u64) -> u64 {
    if sheet.edition == Edition::First || sheet.clocks == 4 {
        return number;
    }
    node_of(sheet, number).map_or(number, |node| node.number(Edition::First))
}

impl LayoutFault {
    /// The number that a step takes in place of this.
    pub fn taken(self, bytes: &[u8], number: u64) -> u64 {
        let sheet = match read(bytes) {
            Err(_) => return number,
            Ok(sheet) => sheet,
        };
        let second = sheet.edition == Edition::Second;
        let location = sheet.edition.location_bit();
        let unnamed = || unnamed_bits(sheet.edition, sheet.clocks).into_iter();
        let above = unnamed().filter(|&bit| bit > location).map(|bit| 1 << bit).sum::<u64>();
        let of_clocks = unnamed().filter(|&bit| bit < location).map(|bit| 1 << bit).sum::<u64>();
        match self {
            LayoutFault::Taken32 => number & LOW,
            LayoutFault::FourthClass if second => number & !(4 << sheet.edition.clock_bit(3)),
            LayoutFault::Location20 if second => {
                number & !(15 << location) | (number >> 20 & 15) << location
            }
            LayoutFault::BitsAbove => number & !above,
            LayoutFault::BitsOfClocks => number & !of_clocks,
            _ => number,
        }
    }

    /// Changes what an allowed step answers.
    pub fn answered(self, bytes: &[u8], numbers: &mut StepNumbers) {
        match self {
            LayoutFault::Answered32 => numbers.number &= LOW,
            LayoutFault::AnsweredAsFirst => {
                let sheet = read(bytes).expect("an allowed step is one of a sheet");
                numbers.number = as_first(&sheet, numbers.number);
            }
            _ => {}
        }
    }

    /// Changes what an accepted plan lists.
    pub fn listed(self, bytes: &[u8], buffers: &mut Buffers, numbers: &PlanNumbers) {
        let sheet = read(bytes).expect("an accepted sheet is read");
        for number in &mut buffers.nodes[..numbers.n as usize] {
            match self {
                LayoutFault::Listed32 => *number &= LOW,
                LayoutFault::ListedAsFirst => *number = as_first(&sheet, *number),
                _ => {}
            }
        }
    }
}
