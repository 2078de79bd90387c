//! Strongly connected components: an arc lies on a cycle if and only if both its ends are in one component.

use super::search::Graph;
use crate::nodes::Arc;

/// The arcs that lie on cycles.
pub fn on_cycles(graph: &Graph) -> Vec<Arc> {
    let component = components(graph);
    graph.arcs.iter().filter(|arc| component[arc.from] == component[arc.to]).copied().collect()
}

/// For each node the number of its component: by a walk along the arcs, and then against them from the nodes that were left last.
fn components(graph: &Graph) -> Vec<usize> {
    let count = graph.nodes.len();
    let (mut along, mut against) = (vec![Vec::new(); count], vec![Vec::new(); count]);
    for arc in &graph.arcs {
        along[arc.from].push(arc.to);
        against[arc.to].push(arc.from);
    }
    let (mut seen, mut left) = (vec![false; count], Vec::new());
    for root in 0..count {
        left.extend(visit(&along, root, &mut seen));
    }
    let (mut seen, mut component) = (vec![false; count], vec![0; count]);
    for root in left.into_iter().rev() {
        visit(&against, root, &mut seen).into_iter().for_each(|node| component[node] = root);
    }
    component
}

/// The nodes not yet seen that a walk from the root comes to, depth first, in the order in which it leaves them.
fn visit(next: &[Vec<usize>], root: usize, seen: &mut [bool]) -> Vec<usize> {
    let mut left = Vec::new();
    let mut path = Vec::new();
    if !seen[root] {
        seen[root] = true;
        path.push((root, 0));
    }
    while let Some((node, tried)) = path.pop() {
        let Some(to) = next[node].get(tried) else {
            left.push(node);
            continue;
        };
        path.push((node, tried + 1));
        if !seen[*to] {
            seen[*to] = true;
            path.push((*to, 0));
        }
    }
    left
}
