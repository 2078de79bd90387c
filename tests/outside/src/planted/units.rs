//! Faults planted in the units of a single step.

use crate::reading::region::{MOVE, UNIT};
use planner::calls::StepNumbers;

#[derive(Clone, Copy, Debug, PartialEq)]
pub enum UnitFault {
    /// A move takes a unit.
    Move,
    /// An edge takes a unit.
    Edge,
    /// A unit of delay takes none.
    Missing,
    /// A refused step with code 32 takes a unit.
    Refused,
    /// A refused step leaves its units as they were.
    Stale,
    /// An allowed step leaves its units as they were.
    Unwritten,
}

pub const UNIT_FAULTS: [(&str, UnitFault); 6] = [
    ("unit-move", UnitFault::Move),
    ("unit-edge", UnitFault::Edge),
    ("unit-missing", UnitFault::Missing),
    ("unit-refused", UnitFault::Refused),
    ("unit-stale", UnitFault::Stale),
    ("unit-unwritten", UnitFault::Unwritten),
];

/// Those that are planted along a lasso too.
pub const LASSO_UNIT_FAULTS: [(&str, UnitFault); 4] = [
    ("lasso-unit-move", UnitFault::Move),
    ("lasso-unit-edge", UnitFault::Edge),
    ("lasso-unit-missing", UnitFault::Missing),
    ("lasso-unit-unwritten", UnitFault::Unwritten),
];

impl UnitFault {
    /// Changes the units of a step that is answered `refusal`; `before` is what stood in the numbers.
    pub fn plant(self, code: u16, refusal: u8, before: &StepNumbers, numbers: &mut StepNumbers) {
        match (self, refusal, code) {
            (UnitFault::Move, 0, MOVE) | (UnitFault::Edge, 0, ..UNIT) => numbers.units = 1,
            (UnitFault::Missing, 0, UNIT) => numbers.units = 0,
            (UnitFault::Refused, 2.., UNIT) => numbers.units = 1,
            (UnitFault::Stale, 2.., _) | (UnitFault::Unwritten, 0, _) => {
                numbers.units = before.units;
            }
            _ => {}
        }
    }
}
