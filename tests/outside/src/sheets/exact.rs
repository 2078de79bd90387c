//! Sheets with an exact number of reachable nodes, for both sides of the limit.

use crate::random::Random;
use crate::reading::edition::MOST_CLOCKS;
use crate::reading::explore::explore;
use crate::reading::sheet::{Edge, Location, Sheet};
use crate::sheets::generate::{cost, location, reward, room, sheet, Prices, Shape};

fn earning_edge(random: &mut Random, prices: Prices) -> Edge {
    Edge { cost: cost(random, prices), reward: reward(random, prices), ..Edge::default() }
}

/// Lets every location reset each clock by itself, so that nearly all nodes are reachable.
fn reset_each_clock(sheet: &mut Sheet, random: &mut Random, prices: Prices) {
    let lower = random.pick(&[None, Some(1), Some(2), Some(3)]);
    for location in 0..sheet.locations.len() {
        for clock in 0..sheet.clocks {
            let mut edge = earning_edge(random, prices);
            (edge.source, edge.target, edge.mask) = (location, location, 1 << clock);
            edge.lower[clock] = lower;
            sheet.edges.push(edge);
        }
    }
}

/// The nodes of a location that is entered with all clocks at 0 and has one bound for all.
fn nodes_on_the_diagonal(upper: usize) -> usize {
    3 * (upper / 2) + upper % 2
}

/// Adds locations, each entered from location 0 with all clocks reset, for `missing` more nodes.
fn pad(sheet: &mut Sheet, mut missing: usize, random: &mut Random, prices: Prices) -> bool {
    while missing > 0 {
        if sheet.locations.len() == 12 || sheet.edges.len() == 32 {
            return false;
        }
        let fitting = (1..=25).rev().find(|&upper| nodes_on_the_diagonal(upper) <= missing);
        let upper = fitting.expect("bound 0 has one node");
        missing -= nodes_on_the_diagonal(upper);
        let (target, mask) = (sheet.locations.len(), (1 << sheet.clocks) - 1);
        sheet.edges.push(Edge { target, mask, ..earning_edge(random, prices) });
        let (cost, upper) = (cost(random, prices), [upper as u8; MOST_CLOCKS]);
        sheet.locations.push(Location { cost, reward: 0, upper });
    }
    true
}

/// Fills up with different edges from location 0 to all, guarded or not, with all clocks reset.
fn fill(sheet: &mut Sheet, edges: usize, random: &mut Random, prices: Prices) {
    while sheet.edges.len() < edges {
        let (target, mask) = (random.below(sheet.locations.len()), (1 << sheet.clocks) - 1);
        let mut edge = Edge { target, mask, ..earning_edge(random, prices) };
        edge.lower[0] = random.percent(20).then(|| random.within(1, 7) as u8);
        if !sheet.edges.contains(&edge) {
            sheet.edges.push(edge);
        }
    }
}

/// Locations that together have room for nearly `nodes` nodes, the last one best fitting.
fn locations(random: &mut Random, shape: &Shape, nodes: usize) -> Vec<Location> {
    let mut left = nodes;
    let mut made = Vec::new();
    for place in 1..=shape.locations {
        let tries = if place == shape.locations { 60 } else { 2 };
        let some: Vec<Location> = (0..tries).map(|_| location(random, shape)).collect();
        let fitting = some.into_iter().filter(|at| room(at, shape.clocks) <= left);
        if let Some(best) = fitting.max_by_key(|at| room(at, shape.clocks)) {
            left -= room(&best, shape.clocks);
            made.push(best);
        }
    }
    made
}

/// A sheet with `nodes` reachable nodes and, where more than made already, `edges` edges.
pub fn exact(random: &mut Random, shape: &Shape, nodes: usize, edges: usize) -> Option<Sheet> {
    for _ in 0..20 {
        let locations = locations(random, shape, nodes);
        if locations.is_empty() {
            continue;
        }
        let shape = Shape { locations: locations.len(), edges: locations.len() - 1, ..*shape };
        let mut made = Sheet { locations, ..sheet(random, &shape) };
        reset_each_clock(&mut made, random, shape.prices);
        let count = explore(&made, nodes).numbers.len();
        if count <= nodes && pad(&mut made, nodes - count, random, shape.prices) {
            fill(&mut made, edges, random, shape.prices);
            return Some(made);
        }
    }
    None
}
