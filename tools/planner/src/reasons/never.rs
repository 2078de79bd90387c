//! Why an edge is never taken.

use super::search::Graph;
use crate::nodes::{node, Node};
use crate::sheet::describe::guards;
use crate::sheet::{Edge, Sheet};

/// The first of three that holds: its source is not reached, its guards are met nowhere there, or its target does not admit what they
/// leave.
pub fn why_never(sheet: &Sheet, graph: &Graph, edge: &Edge) -> String {
    let [source, target] = [edge.source, edge.target].map(|i| &sheet.locations[i].name);
    let mut here = graph.nodes.iter().map(|number| node(sheet.edition, *number)).filter(|node| node.location == edge.source).peekable();
    if here.peek().is_none() {
        return format!("its source '{source}' is not reached");
    }
    if !here.any(|node| met(edge, &node)) {
        let guards = guards(edge, &sheet.clocks).join(", ");
        return format!("its guard {guards} is met at no node that is reached in '{source}'");
    }
    format!("wherever its guard is met in '{source}', the bounds of its target '{target}' do not admit the clocks after it")
}

/// Whether the guards hold in the whole region of a node. A clock at h is at 2h in half units, and one between h and h + 1 at 2h + 1: a
/// lower byte asks for as much at least, and an upper byte for less.
fn met(edge: &Edge, node: &Node) -> bool {
    let halves = |j: usize| 2 * node.whole[j] + i64::from(node.class[j] > 0);
    let lower = edge.lower.iter().enumerate().all(|(j, byte)| byte.is_none_or(|byte| halves(j) >= i64::from(byte)));
    lower && edge.upper.iter().enumerate().all(|(j, byte)| byte.is_none_or(|byte| halves(j) < i64::from(byte)))
}
