//! Faults planted in the smallest of the potentials of a plan.

use crate::library::marked::Buffers;
use crate::reading::expected::expect;
use crate::reading::region::UNIT;
use crate::runs::in_nths::{explore, least_runs};
use planner::calls::PlanNumbers;
use std::collections::HashSet;

#[derive(Clone, Copy, Debug, PartialEq)]
pub enum SmallestFault {
    /// It is higher by 1.
    Higher,
    /// It is lower by 1.
    Lower,
    /// The largest is told for it.
    Largest,
    /// It is 0.
    Zero,
    /// It is divided by q.
    Divided,
    /// It is the smallest of the nodes that an edge enters, as if no run ended with a delay.
    Entered,
    /// It is the smallest along the lasso, as if each run came round.
    Lasso,
    /// It is the least weight of a run in whole units.
    Whole,
}

pub const SMALLEST_FAULTS: [(&str, SmallestFault); 8] = [
    ("smallest-higher", SmallestFault::Higher),
    ("smallest-lower", SmallestFault::Lower),
    ("smallest-largest", SmallestFault::Largest),
    ("smallest-zero", SmallestFault::Zero),
    ("smallest-divided", SmallestFault::Divided),
    ("smallest-entered", SmallestFault::Entered),
    ("smallest-lasso", SmallestFault::Lasso),
    ("smallest-whole", SmallestFault::Whole),
];

/// The start and the nodes that an edge enters.
fn entered(sheet: &[u8]) -> HashSet<u64> {
    let graph = expect(sheet).graph.expect("an accepted sheet has a graph");
    let arcs = graph.arcs.iter().zip(&graph.codes).filter(|(_, code)| **code < UNIT);
    arcs.map(|(arc, _)| graph.numbers[arc.to]).chain([0]).collect()
}

/// The nodes of the walk from the start.
fn along(sheet: &[u8], codes: &[u16]) -> HashSet<u64> {
    let mut node = 0;
    let steps = codes.iter().map(|&code| {
        node = planner::step(sheet, node, code).expect("the lasso is a walk").node;
        node
    });
    steps.chain([0]).collect()
}

fn least_whole(sheet: &[u8], numbers: &PlanNumbers) -> Option<i64> {
    let sheet = expect(sheet).sheet.expect("an accepted sheet is read");
    let weights = least_runs(&explore(&sheet, 1)?, numbers.p.into(), numbers.q.into())?;
    weights.into_iter().min().map(|weight| weight as i64)
}

impl SmallestFault {
    /// What is told for the smallest potential.
    fn told(self, sheet: &[u8], buffers: &Buffers, numbers: &PlanNumbers, smallest: i64) -> i64 {
        let count = numbers.n as usize;
        let potentials = &buffers.potentials[..count];
        let smallest_of = |some: HashSet<u64>| {
            let entries = buffers.nodes[..count].iter().zip(potentials);
            let those = entries.filter(|(node, _)| some.contains(node));
            those.map(|(_, potential)| *potential).min().expect("the start is one of them")
        };
        let lasso = &buffers.steps[..(numbers.s + numbers.m) as usize];
        match self {
            SmallestFault::Higher => smallest + 1,
            SmallestFault::Lower => smallest - 1,
            SmallestFault::Largest => *potentials.iter().max().expect("the start has one"),
            SmallestFault::Zero => 0,
            SmallestFault::Divided => smallest / numbers.q,
            SmallestFault::Entered => smallest_of(entered(sheet)),
            SmallestFault::Lasso => smallest_of(along(sheet, lasso)),
            SmallestFault::Whole => least_whole(sheet, numbers).unwrap_or(smallest),
        }
    }

    /// Changes the smallest potential, and those that would then be below it.
    pub fn plant(self, sheet: &[u8], buffers: &mut Buffers, numbers: &PlanNumbers) {
        let count = numbers.n as usize;
        let smallest = *buffers.potentials[..count].iter().min().expect("the start has one");
        let told = self.told(sheet, buffers, numbers, smallest);
        let changed =
            buffers.potentials[..count].iter_mut().filter(|at| **at <= told.max(smallest));
        changed.for_each(|potential| *potential = told);
    }
}
