//! The tool's own search: every node that steps lead to from the start, breadth first.

use crate::nodes::{node, steps, Arc};
use crate::sheet::{edition::Edition, Sheet};
use crate::stop::Stop;
use std::collections::HashMap;

/// The search stops where it would go on to one more.
pub const MOST: usize = planner::LEAST_ENTRIES;

#[derive(Debug, Default)]
pub struct Graph {
    edition: Edition,
    /// Node numbers in the order in which they are found; the start is the first.
    pub nodes: Vec<u64>,
    pub arcs: Vec<Arc>,
    /// For each node the arc that found it; none found the start.
    pub found_by: Vec<Option<usize>>,
    /// There are more nodes than these.
    pub more: bool,
    places: HashMap<u64, usize>,
}

impl Graph {
    pub fn location(&self, place: usize) -> usize {
        node(self.edition, self.nodes[place]).location
    }

    /// The place of a node, which is new or not; none where it would be one too many.
    fn place(&mut self, number: u64, found_by: Option<usize>) -> Option<usize> {
        if let Some(place) = self.places.get(&number) {
            return Some(*place);
        }
        if self.nodes.len() == MOST {
            return None;
        }
        self.places.insert(number, self.nodes.len());
        self.nodes.push(number);
        self.found_by.push(found_by);
        Some(self.nodes.len() - 1)
    }

    fn steps(&mut self, sheet: &Sheet, bytes: &[u8], from: usize) -> Result<(), Stop> {
        for (code, step) in steps(sheet, bytes, self.nodes[from])? {
            let Some(to) = self.place(step.node, Some(self.arcs.len())) else {
                self.more = true;
                return Ok(());
            };
            self.arcs.push(Arc { from, code, to, cost: step.cost, reward: step.reward });
        }
        Ok(())
    }
}

/// The whole graph, or its first 2,048 nodes where there are more.
pub fn search(sheet: &Sheet, bytes: &[u8]) -> Result<Graph, Stop> {
    let mut graph = Graph { edition: sheet.edition, ..Graph::default() };
    graph.place(0, None);
    let mut next = 0;
    while next < graph.nodes.len() && !graph.more {
        graph.steps(sheet, bytes, next)?;
        next += 1;
    }
    Ok(graph)
}
