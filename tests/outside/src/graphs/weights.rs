//! Priced arcs, and the least weights of walks along them.

use crate::graphs::cyclic::has_cycle;

/// An arc with what it costs and earns.
pub struct Arc {
    pub from: usize,
    pub to: usize,
    pub cost: i64,
    pub reward: i64,
}

pub type Weighted = (usize, usize, i128);

/// The arcs with weight q times cost minus p times reward.
pub fn weighted(arcs: &[Arc], p: i128, q: i128) -> Vec<Weighted> {
    let weight = |arc: &Arc| q * i128::from(arc.cost) - p * i128::from(arc.reward);
    arcs.iter().map(|arc| (arc.from, arc.to, weight(arc))).collect()
}

/// Whether the arcs last taken to each node close a cycle; such a cycle weighs less than 0.
fn parents_close(nodes: usize, arcs: &[Weighted], parents: &[Option<usize>]) -> bool {
    let taken = parents.iter().flatten().map(|&at| (arcs[at].0, arcs[at].1));
    has_cycle(nodes, &taken.collect::<Vec<_>>())
}

/// The least weights of walks from node 0, from which all nodes are reached, or none where a cycle
/// weighs less than 0.
pub fn least_weights(nodes: usize, arcs: &[Weighted]) -> Option<Vec<i128>> {
    let mut least: Vec<Option<i128>> = vec![None; nodes];
    let mut parents: Vec<Option<usize>> = vec![None; nodes];
    least[0] = Some(0);
    // With no negative cycle, a least walk has fewer arcs than there are nodes, so the last of
    // these rounds changes nothing.
    for round in 0..=nodes {
        let mut changed = false;
        for (at, &(from, to, weight)) in arcs.iter().enumerate() {
            let reached = match least[from] {
                Some(known) => known + weight,
                None => continue,
            };
            if least[to].is_none_or(|known| reached < known) {
                least[to] = Some(reached);
                parents[to] = Some(at);
                changed = true;
            }
        }
        if !changed {
            return least.into_iter().collect();
        }
        if round.is_power_of_two() && parents_close(nodes, arcs, &parents) {
            return None;
        }
    }
    None
}

/// The least weights of walks that may begin at every node, or none where a cycle weighs less than
/// 0: walks from a further node that has an arc of weight 0 to each.
pub fn least_from_anywhere(nodes: usize, arcs: &[Weighted]) -> Option<Vec<i128>> {
    let mut all: Vec<Weighted> = (1..=nodes).map(|node| (0, node, 0)).collect();
    all.extend(arcs.iter().map(|&(from, to, weight)| (from + 1, to + 1, weight)));
    least_weights(nodes + 1, &all).map(|mut least| least.split_off(1))
}
