//! Random sheets of a given shape.

use crate::random::Random;
use crate::reading::edition::{Edition, MOST_CLOCKS};
use crate::reading::sheet::{Edge, Location, Sheet};

#[derive(Clone, Copy)]
pub enum Prices {
    Small,
    Wide,
    Negative,
    Extreme,
}

/// What a random sheet looks like; `strict`, `guards`, `resets`, `earning` and `rates` in percent.
#[derive(Clone, Copy)]
pub struct Shape {
    pub edition: Edition,
    pub clocks: usize,
    pub locations: usize,
    pub edges: usize,
    /// The greatest whole number of a bound.
    pub bound: i64,
    /// The most nodes that a sheet has room for.
    pub room: usize,
    pub strict: u64,
    pub guards: u64,
    pub resets: u64,
    pub earning: u64,
    pub rates: u64,
    pub prices: Prices,
    /// Edges lead only to later locations.
    pub forward: bool,
}

/// How many nodes a location has room for: those of all regions within its bounds.
pub fn room(location: &Location, clocks: usize) -> usize {
    // Nodes of all regions in which a given set of 0, 1, 2, 3 or 4 clocks has a fraction.
    const CORNERS: [usize; MOST_CLOCKS + 1] = [1, 2, 8, 44, 308];
    let nodes_of = |set: usize| -> usize {
        let ways = (0..clocks).map(|j| {
            let upper = usize::from(location.upper[j]);
            if set >> j & 1 == 1 {
                upper / 2
            } else {
                upper / 2 + upper % 2
            }
        });
        ways.product::<usize>() * CORNERS[set.count_ones() as usize]
    };
    (0..1 << clocks).map(nodes_of).sum()
}

pub fn cost(random: &mut Random, prices: Prices) -> i64 {
    match prices {
        Prices::Small => random.within(-9, 9),
        Prices::Wide => random.within(-10_000, 10_000),
        Prices::Negative => random.within(-10_000, -1),
        Prices::Extreme => random.pick(&[-10_000, -9_999, -1, 1, 9_999, 10_000]),
    }
}

pub fn reward(random: &mut Random, prices: Prices) -> i64 {
    match prices {
        Prices::Small => random.within(1, 5),
        Prices::Wide | Prices::Negative => random.within(1, 10_000),
        Prices::Extreme => random.pick(&[1, 2, 9_999, 10_000]),
    }
}

fn upper(random: &mut Random, shape: &Shape) -> u8 {
    if random.percent(shape.strict) {
        2 * random.within(1, shape.bound) as u8
    } else {
        let least = i64::from(random.percent(90));
        2 * random.within(least, shape.bound) as u8 + 1
    }
}

pub fn location(random: &mut Random, shape: &Shape) -> Location {
    let mut location = Location::default();
    for j in 0..shape.clocks {
        location.upper[j] = upper(random, shape);
    }
    if random.percent(shape.rates) {
        location.cost = cost(random, shape.prices);
        location.reward = i64::from(random.percent(50)) * reward(random, shape.prices);
    }
    location
}

fn guard(random: &mut Random, shape: &Shape, least: i64) -> Option<u8> {
    if !random.percent(shape.guards) {
        return None;
    }
    if random.percent(3) {
        return Some(random.within(least, 25) as u8);
    }
    let strict = i64::from(random.percent(shape.strict));
    // The odd byte is the closed one of an upper guard, and the strict one of a lower guard.
    let odd = if least == 0 { 1 - strict } else { strict };
    Some((2 * random.within(0, shape.bound) + odd).max(least) as u8)
}

fn edge(random: &mut Random, shape: &Shape, place: usize) -> Edge {
    let last = shape.locations - 1;
    let mut edge = Edge::default();
    if shape.forward {
        edge.source = random.below(last.max(1));
        edge.target = (edge.source + 1 + random.below(last.max(1))).min(last);
    } else if place < last {
        // The first edges lead from an earlier location to each of the others.
        edge.source = random.below(place + 1);
        edge.target = place + 1;
    } else {
        edge.source = random.below(shape.locations);
        edge.target = random.below(shape.locations);
    }
    edge.cost = i64::from(random.percent(85)) * cost(random, shape.prices);
    edge.reward = i64::from(random.percent(shape.earning)) * reward(random, shape.prices);
    for j in 0..shape.clocks {
        edge.mask |= u8::from(random.percent(shape.resets)) << j;
        edge.lower[j] = guard(random, shape, 1);
        edge.upper[j] = guard(random, shape, 0);
    }
    edge
}

/// A sheet of this shape; no two of its edges are equal.
pub fn sheet(random: &mut Random, shape: &Shape) -> Sheet {
    let Shape { edition, clocks, .. } = *shape;
    let mut sheet = Sheet { edition, clocks, ..Sheet::default() };
    // Few of the many regions of four clocks are reached.
    let mut left = if clocks == 4 { 10 * shape.room } else { shape.room };
    for place in 0..shape.locations {
        let mut made = location(random, shape);
        if place > 0 && random.percent(2) {
            // Below 0: no state may be here.
            made.upper[random.below(clocks)] = 0;
        }
        while room(&made, clocks) > left.max(1) {
            let j = random.below(clocks);
            made.upper[j] = made.upper[j].saturating_sub(2).max(1);
        }
        left = left.saturating_sub(room(&made, clocks));
        sheet.locations.push(made);
    }
    for place in 0..shape.edges {
        let mut made = edge(random, shape, place);
        while sheet.edges.contains(&made) {
            made = edge(random, shape, place);
        }
        sheet.edges.push(made);
    }
    sheet
}

/// Leaves out each edge that is equal to an earlier one, which has the same steps.
pub fn leave_out_copies(sheet: &mut Sheet) {
    let mut kept: Vec<Edge> = Vec::new();
    for edge in sheet.edges.drain(..) {
        if !kept.contains(&edge) {
            kept.push(edge);
        }
    }
    sheet.edges = kept;
}
