//! The reachable nodes and the steps between them, breadth first.

use crate::graphs::weights::Arc;
use crate::reading::region::{node_of, step, Node, Step, MOVE};
use crate::reading::sheet::Sheet;
use std::collections::{HashMap, HashSet};

pub struct Graph {
    /// Node numbers in the order of discovery; the start is the first.
    pub numbers: Vec<u64>,
    /// The locations of the nodes.
    pub locations: HashSet<usize>,
    pub arcs: Vec<Arc>,
    /// The code of each arc.
    pub codes: Vec<u16>,
}

pub const MOST_NODES: usize = 2048;

/// Explores until more than `limit` nodes are found; then the graph is not whole.
pub fn explore(sheet: &Sheet, limit: usize) -> Graph {
    let start = node_of(sheet, 0).expect("the start is a node of every sheet that is read");
    let mut found: HashMap<u64, usize> = HashMap::from([(0, 0)]);
    let mut nodes: Vec<Node> = vec![start];
    let (mut arcs, mut codes) = (Vec::new(), Vec::new());
    let mut from = 0;
    while from < nodes.len() && nodes.len() <= limit {
        for code in 0..=MOVE {
            if let Some(Step { to: next, cost, reward, .. }) = step(sheet, &nodes[from], code) {
                let to = *found.entry(next.number(sheet.edition)).or_insert_with(|| {
                    nodes.push(next);
                    nodes.len() - 1
                });
                arcs.push(Arc { from, to, cost, reward });
                codes.push(code);
            }
        }
        from += 1;
    }
    let numbers = nodes.iter().map(|node| node.number(sheet.edition)).collect();
    let locations = nodes.iter().map(|node| node.location).collect();
    Graph { numbers, locations, arcs, codes }
}
