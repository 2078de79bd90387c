//! Rules of the node list.

use super::reading::node_words;
use super::verify::{broken, Broken};
use crate::nodes::Arc;

/// The largest number of nodes.
const NODES: usize = planner::LEAST_ENTRIES;

/// The question that a number is asked whether it is that of a node.
const NO_NODE: u8 = 15;

/// Every step from every node of the list, if the list keeps its rules.
pub fn arcs(sheet: &[u8], nodes: &[u64]) -> Result<Vec<Arc>, Broken> {
    if nodes.len() > NODES {
        return broken("node-count", format!("{} nodes are listed, and {NODES} are the most", nodes.len()));
    }
    if let Some(pair) = nodes.windows(2).find(|pair| pair[0] >= pair[1]) {
        return broken("nodes-rise", format!("{} stands behind {}", node_words(sheet, pair[1]), node_words(sheet, pair[0])));
    }
    if let Some(node) = nodes.iter().find(|node| !is_node(sheet, **node)) {
        return broken("nodes-of-sheet", format!("{node} is not the number of a node of the sheet"));
    }
    if nodes.first() != Some(&0) {
        return broken("start-listed", "the start, node 0, is not listed".to_string());
    }
    let mut arcs = Vec::new();
    for (from, node) in nodes.iter().enumerate() {
        successors(sheet, nodes, from, *node, &mut arcs)?;
    }
    Ok(arcs)
}

/// Whatever the code, the step asks first whether the number is that of a node.
fn is_node(sheet: &[u8], node: u64) -> bool {
    planner::step(sheet, node, planner::MOVE).map_err(|refusal| refusal.number()) != Err(NO_NODE)
}

fn successors(sheet: &[u8], nodes: &[u64], from: usize, node: u64, arcs: &mut Vec<Arc>) -> Result<(), Broken> {
    for code in 0..=planner::MOVE {
        let Ok(step) = planner::step(sheet, node, code) else { continue };
        match nodes.binary_search(&step.node) {
            Ok(to) => arcs.push(Arc { from, code, to, cost: step.cost, reward: step.reward }),
            Err(_) => {
                let (node, next) = (node_words(sheet, node), node_words(sheet, step.node));
                return broken("successors-listed", format!("code {code} leads from {node} to {next}, which is not listed"));
            }
        }
    }
    Ok(())
}
