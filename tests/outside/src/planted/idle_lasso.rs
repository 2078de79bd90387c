//! A lasso whose cycle earns nothing and costs 0, as a fault.

use crate::graphs::cyclic::some_cycle;
use crate::graphs::questions::free_arcs;
use crate::reading::explore::Graph;

/// The codes of its stem and of its cycle, where there is such a cycle. It meets no node twice except
/// where it closes.
pub fn idle_lasso(graph: &Graph) -> Option<(Vec<u16>, Vec<u16>)> {
    let (nodes, arcs) = (graph.numbers.len(), &graph.arcs);
    let free = free_arcs(nodes, arcs)?;
    let ends: Vec<_> = free.iter().map(|&at| (arcs[at].from, arcs[at].to)).collect();
    let mut cycle: Vec<usize> = some_cycle(nodes, &ends)?.iter().map(|&at| free[at]).collect();
    // The first arcs to each node lead from the start to the node of the cycle that was found first,
    // by nodes found before it.
    let first = (0..cycle.len()).min_by_key(|&place| arcs[cycle[place]].from)?;
    cycle.rotate_left(first);
    let mut stem = Vec::new();
    let mut node = arcs[cycle[0]].from;
    while node != 0 {
        let at = arcs.iter().position(|arc| arc.to == node)?;
        stem.push(at);
        node = arcs[at].from;
    }
    stem.reverse();
    let codes = |places: Vec<usize>| places.into_iter().map(|at| graph.codes[at]).collect();
    Some((codes(stem), codes(cycle)))
}
