//! Faults planted in the pairs of a work plan that the library accepted.

use crate::library::marked::PairBuffers;
use crate::planted::idle_lasso::idle_lasso;
use crate::reading::expected::expect;
use crate::reading::region::{MOVE, UNIT};
use crate::runs::replay::Pair;
use crate::runs::turned::{at_first_edge, pairs, turned};
use planner::calls::WorkNumbers;
use planner::Planner;

#[derive(Clone, Copy, Debug, PartialEq)]
pub enum PairFault {
    /// A move is counted as a unit.
    Move,
    /// The cycle starts where that of the lasso does, and a wait that it ends with is lost.
    Unturned,
    /// The cycle starts just after its second edge, and the stem grows by as much.
    SecondEdge,
    /// The stem does not grow by the part up to the first edge of the cycle.
    Ungrown,
    /// The wait after the last edge of the cycle is dropped.
    Dropped,
    /// The wait after the last edge of the stem is dropped.
    StemWait,
    /// The cycle is gone round twice.
    Twice,
    /// The stem goes round the cycle once.
    StemRound,
    /// The cycle is idle and costs 0.
    Idle,
    /// The last wait is longer by a unit.
    Longer,
    /// Each wait stands with the next edge.
    Shifted,
    /// The last edges of stem and cycle have the next number.
    NextEdge,
    /// Each buffer has what belongs to the other.
    Exchanged,
    /// The last pair is missing.
    LastPair,
    /// The stem's length is told for the cycle's, and the cycle's for the stem's.
    Lengths,
    /// The lengths are counted in a byte.
    Bytes,
}

pub const PAIR_FAULTS: [(&str, PairFault); 16] = [
    ("work-move", PairFault::Move),
    ("work-unturned", PairFault::Unturned),
    ("work-second-edge", PairFault::SecondEdge),
    ("work-ungrown", PairFault::Ungrown),
    ("work-dropped", PairFault::Dropped),
    ("work-stem-wait", PairFault::StemWait),
    ("work-twice", PairFault::Twice),
    ("work-stem-round", PairFault::StemRound),
    ("work-idle", PairFault::Idle),
    ("work-longer", PairFault::Longer),
    ("work-shifted", PairFault::Shifted),
    ("work-next-edge", PairFault::NextEdge),
    ("work-exchanged", PairFault::Exchanged),
    ("work-last-pair", PairFault::LastPair),
    ("work-lengths", PairFault::Lengths),
    ("work-bytes", PairFault::Bytes),
];

/// The codes up to the last edge, with it.
fn to_last_edge(codes: &[u16]) -> &[u16] {
    let edges = codes.iter().rposition(|&code| code < UNIT);
    &codes[..edges.map_or(0, |last| last + 1)]
}

fn with_moves_as_units(codes: &[u16]) -> Vec<u16> {
    codes.iter().map(|&code| if code == MOVE { UNIT } else { code }).collect()
}

/// The codes of the lasso that the pairs are made of.
fn lasso(fault: PairFault, sheet: &[u8]) -> (Vec<u16>, Vec<u16>) {
    if fault == PairFault::Idle {
        let graph = expect(sheet).graph.expect("a sheet with a plan has a graph");
        if let Some(idle) = idle_lasso(&graph) {
            return idle;
        }
    }
    let mut planner = Planner::new();
    let plan = planner.plan(sheet).expect("a sheet with a work plan has a plan");
    (plan.stem.to_vec(), plan.cycle.to_vec())
}

/// The pairs of stem and cycle with the fault, made of the lasso.
fn faulty_pairs(fault: PairFault, stem: &[u16], cycle: &[u16]) -> (Vec<Pair>, Vec<Pair>) {
    let turned = |stem: &[u16], cycle: &[u16]| turned(stem, cycle).expect("a cycle has an edge");
    let (right_stem, right_cycle) = turned(stem, cycle);
    match fault {
        PairFault::Move => turned(&with_moves_as_units(stem), &with_moves_as_units(cycle)),
        PairFault::Unturned => (right_stem, pairs(to_last_edge(cycle))),
        PairFault::SecondEdge => {
            let (part, rest) = at_first_edge(cycle).expect("a cycle has an edge");
            turned(&[stem, part].concat(), &[rest, part].concat())
        }
        PairFault::Ungrown => (pairs(to_last_edge(stem)), right_cycle),
        PairFault::Dropped => turned(stem, to_last_edge(cycle)),
        PairFault::StemWait => turned(to_last_edge(stem), cycle),
        PairFault::Twice => (right_stem, right_cycle.repeat(2)),
        PairFault::StemRound => ([&right_stem[..], &right_cycle].concat(), right_cycle),
        PairFault::LastPair => (right_stem, right_cycle[..right_cycle.len() - 1].to_vec()),
        _ => (right_stem, right_cycle),
    }
}

/// Writes the pairs, and 0 behind them.
fn put(stem: &[Pair], cycle: &[Pair], buffers: &mut PairBuffers) {
    buffers.waits.fill(0);
    buffers.edges.fill(0);
    for (at, &(wait, edge)) in stem.iter().chain(cycle).enumerate() {
        (buffers.waits[at], buffers.edges[at]) = (wait, edge);
    }
}

impl PairFault {
    /// Writes pairs with the fault, and their lengths.
    pub fn plant(self, sheet: &[u8], buffers: &mut PairBuffers, numbers: &mut WorkNumbers) {
        let (stem, cycle) = lasso(self, sheet);
        let (stem, cycle) = faulty_pairs(self, &stem, &cycle);
        put(&stem, &cycle, buffers);
        let (first, all) = (stem.len(), stem.len() + cycle.len());
        let (mut lengths, PairBuffers { waits, edges }) = ([first, all - first], buffers);
        match self {
            PairFault::Longer => waits[all - 1] += 1,
            PairFault::Shifted => waits[..all].rotate_right(1),
            PairFault::NextEdge => [first - 1, all - 1].iter().for_each(|&at| edges[at] += 1),
            PairFault::Exchanged => waits[..all].swap_with_slice(&mut edges[..all]),
            PairFault::Lengths => lengths.reverse(),
            PairFault::Bytes => lengths = lengths.map(|length| length % 256),
            _ => {}
        }
        let [stem, cycle] = lengths.map(|length| length as i64);
        *numbers = WorkNumbers { stem, cycle };
    }
}
