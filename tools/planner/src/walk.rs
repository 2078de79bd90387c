//! Walks by the proved step.

use crate::schedule::Sum;

/// Where the steps of a walk were taken and how long each took, where it ends, and what it takes, costs and earns.
#[derive(Debug, PartialEq, Eq)]
pub struct Walk {
    /// The number of the node at which each step was taken.
    pub nodes: Vec<u64>,
    /// The units of time that each step took.
    pub units: Vec<i64>,
    pub end: u64,
    pub sum: Sum,
}

/// A step that is not allowed, by its place in the walk.
#[derive(Debug, PartialEq, Eq)]
pub struct Stuck {
    pub place: usize,
    pub node: u64,
    pub code: u16,
    pub refusal: planner::Refusal,
}

pub fn walk(bytes: &[u8], from: u64, codes: &[u16]) -> Result<Walk, Stuck> {
    let (nodes, units) = (Vec::with_capacity(codes.len()), Vec::with_capacity(codes.len()));
    let mut walk = Walk { nodes, units, end: from, sum: Sum::default() };
    for (place, code) in codes.iter().copied().enumerate() {
        let node = walk.end;
        let step = planner::step(bytes, node, code).map_err(|refusal| Stuck { place, node, code, refusal })?;
        walk.nodes.push(node);
        walk.units.push(step.units);
        walk.end = step.node;
        walk.sum.time += step.units;
        walk.sum.cost += step.cost;
        walk.sum.reward += step.reward;
    }
    Ok(walk)
}

#[cfg(test)]
mod tests {
    use super::*;

    /// Bench, whose cycle is 33, 32, 33, 0.
    const BENCH: [u8; 18] = [1, 1, 1, 1, 5, 1, 0, 5, 15, 0, 0, 0, 5, 0, 2, 0, 1, 2];

    #[test]
    fn a_unit_of_delay_takes_time_and_no_other_step_does() {
        let walked = walk(&BENCH, 0, &[33, 32, 33, 0, 33, 32, 33]).expect("a walk");
        assert_eq!(walked.units, [0, 1, 0, 0, 0, 1, 0]);
        assert_eq!(walked.sum, Sum { time: 2, cost: 7, reward: 2 });
        assert_eq!((walked.nodes[..2].to_vec(), walked.end), (vec![0, 5], 16));
        let stuck = walk(&BENCH, 0, &[33, 32, 32]).expect_err("a second unit");
        assert_eq!((stuck.place, stuck.node, stuck.code, stuck.refusal.number()), (2, 4, 32, 16));
    }
}
