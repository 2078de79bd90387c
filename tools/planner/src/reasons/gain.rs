//! A loop that earns nothing and costs less than 0, by Bellman and Ford, and a walk to it.

use super::search::Graph;
use crate::nodes::Arc;
use crate::schedule::Sum;
use crate::walk::walk;

/// The codes of the walk, and those of the loop.
pub fn gain(graph: &Graph) -> Option<(Vec<u16>, Vec<u16>)> {
    let cycle = negative_cycle(graph)?;
    // the node of the cycle that was found first, so that the walk to it meets no other
    let first = (0..cycle.len()).min_by_key(|i| cycle[*i].from)?;
    let codes = |arcs: &[Arc]| arcs.iter().map(|arc| arc.code).collect::<Vec<_>>();
    let (before, after) = cycle.split_at(first);
    Some((codes(&walk_to(graph, cycle[first].from)), codes(&[after, before].concat())))
}

/// Along the arcs that found the nodes.
fn walk_to(graph: &Graph, mut place: usize) -> Vec<Arc> {
    let mut arcs = Vec::new();
    while let Some(found_by) = graph.found_by[place] {
        arcs.push(graph.arcs[found_by]);
        place = graph.arcs[found_by].from;
    }
    arcs.reverse();
    arcs
}

/// Costs begin at 0 everywhere, so that a cycle is found wherever it lies. As long as a round lowers some cost there may be one, and
/// after as many rounds as there are nodes the last arcs that lowered one have closed it.
fn negative_cycle(graph: &Graph) -> Option<Vec<Arc>> {
    let free: Vec<_> = graph.arcs.iter().filter(|arc| arc.reward == 0).copied().collect();
    let mut cost = vec![0; graph.nodes.len()];
    let mut last: Vec<Option<Arc>> = vec![None; graph.nodes.len()];
    for _ in 0..=graph.nodes.len() {
        if !lowered(&free, &mut cost, &mut last) {
            return None;
        }
        if let Some(cycle) = closed(&last) {
            return Some(cycle);
        }
    }
    None
}

/// Goes through the arcs once.
fn lowered(arcs: &[Arc], cost: &mut [i64], last: &mut [Option<Arc>]) -> bool {
    let mut some = false;
    for arc in arcs {
        let by_arc = cost[arc.from] + arc.cost;
        if by_arc < cost[arc.to] {
            cost[arc.to] = by_arc;
            last[arc.to] = Some(*arc);
            some = true;
        }
    }
    some
}

/// A cycle of the arcs that lead to each node, in the order in which it is gone round.
fn closed(last: &[Option<Arc>]) -> Option<Vec<Arc>> {
    let mut met_from = vec![None; last.len()];
    for root in 0..last.len() {
        let mut place = root;
        while let (None, Some(arc)) = (met_from[place], last[place]) {
            met_from[place] = Some(root);
            place = arc.from;
        }
        if met_from[place] == Some(root) {
            return Some(back_from(last, place));
        }
    }
    None
}

/// From a node that lies on a cycle, back to it.
fn back_from(last: &[Option<Arc>], place: usize) -> Vec<Arc> {
    let mut cycle = Vec::new();
    let mut next = last[place];
    while let Some(arc) = next {
        cycle.push(arc);
        next = if arc.from == place { None } else { last[arc.from] };
    }
    cycle.reverse();
    cycle
}

/// What a round takes, costs and earns, by stepping; none where a step is not allowed, or the cycle does not close or meets a node twice
/// before it does.
pub fn round(bytes: &[u8], stem: &[u16], cycle: &[u16]) -> Option<Sum> {
    let start = walk(bytes, 0, stem).ok()?.end;
    let walked = walk(bytes, start, cycle).ok()?;
    let mut met = walked.nodes.clone();
    met.sort_unstable();
    met.dedup();
    let closes = walked.end == start && met.len() == cycle.len();
    closes.then_some(walked.sum)
}

#[cfg(test)]
mod tests {
    use super::*;

    /// Bench, whose cycle is 33, 32, 33, 0.
    const BENCH: [u8; 18] = [1, 1, 1, 1, 5, 1, 0, 5, 15, 0, 0, 0, 5, 0, 2, 0, 1, 2];

    #[test]
    fn a_round_is_a_simple_cycle() {
        let once = [33, 32, 33, 0];
        let sum = Sum { time: 1, cost: 6, reward: 2 };
        assert_eq!(round(&BENCH, &[], &once), Some(sum));
        assert_eq!(round(&BENCH, &[33], &[32, 33, 0, 33]), Some(sum));
        assert_eq!(round(&BENCH, &[], &[once, once].concat()), None, "it meets nodes twice");
        assert_eq!(round(&BENCH, &[], &once[..3]), None, "it does not close");
        assert_eq!(round(&BENCH, &[], &[0]), None, "it is not allowed");
        assert_eq!(round(&BENCH, &[0], &once), None, "the way to it is not allowed");
    }
}
