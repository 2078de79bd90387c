//! The schedule of a lasso's corner points, in whole units.

use super::lasso::{stepped, turned};
use crate::schedule::{of_waits, Schedule, Visit};
use crate::sheet::Sheet;
use crate::stop::Stop;
use crate::walk::Walk;

/// A schedule of corner points, and at each of its edges the node where it is taken.
#[derive(Debug, PartialEq, Eq)]
pub struct Corners {
    pub schedule: Schedule,
    pub nodes: Vec<u64>,
}

/// Waits before edges, where each edge is taken, and the wait behind the last one: a wait is the units that its steps take.
pub fn visits(codes: &[u16], walk: &Walk) -> (Vec<Visit>, Vec<u64>, i64) {
    let (mut visits, mut nodes, mut wait) = (Vec::new(), Vec::new(), 0);
    for ((code, node), units) in codes.iter().zip(&walk.nodes).zip(&walk.units) {
        wait += units;
        if *code < planner::UNIT {
            visits.push(Visit { wait, edge: usize::from(*code) });
            nodes.push(*node);
            wait = 0;
        }
    }
    (visits, nodes, wait)
}

pub fn corners(sheet: &Sheet, bytes: &[u8], stem: &[u16], cycle: &[u16]) -> Result<Corners, Stop> {
    let Some((stem, cycle)) = turned(stem, cycle) else {
        return Err(Stop::Difference("the cycle of the lasso has no edge".to_string()));
    };
    let before = stepped(bytes, 0, &stem)?;
    let round = stepped(bytes, before.end, &cycle)?;
    let ((stem, mut nodes, _), (cycle, others, _)) = (visits(&stem, &before), visits(&cycle, &round));
    nodes.extend(others);
    Ok(Corners { schedule: of_waits(sheet, 1, &stem, &cycle), nodes })
}
