//! Sheets that are built to a plan, where random ones would seldom come to it.

use crate::random::Random;
use crate::reading::edition::MOST_CLOCKS;
use crate::reading::sheet::{Edge, Location, Sheet};
use crate::sheets::generate::{cost, leave_out_copies, reward, sheet, Shape};

/// Locations in a ring, each left only after a long time: the ratio has a great denominator.
pub fn ring(random: &mut Random, shape: &Shape) -> Sheet {
    let mut made = sheet(random, shape);
    let count = made.locations.len();
    for (source, location) in made.locations.iter_mut().enumerate() {
        location.upper = [random.pick(&[22, 23, 24, 25]); MOST_CLOCKS];
        location.reward = reward(random, shape.prices);
        let (target, mask) = ((source + 1) % count, (1 << shape.clocks) - 1);
        let mut edge = Edge { source, target, mask, ..Edge::default() };
        (edge.cost, edge.reward) = (cost(random, shape.prices), reward(random, shape.prices));
        edge.lower[0] = Some(random.within(18, 21) as u8);
        made.edges.push(edge);
    }
    made
}

/// A ring of which one edge earns 1, and the rest only costs or only gains: the ratio is far from 0.
/// Some have an idle cycle that costs little, or nothing.
pub fn dear_ring(random: &mut Random, shape: &Shape) -> Sheet {
    let mut made = ring(random, shape);
    let sign = random.pick(&[-1, 1]);
    for location in &mut made.locations {
        (location.cost, location.reward) = (sign * random.within(9_000, 10_000), 0);
        location.upper = [random.pick(&[24, 25]); MOST_CLOCKS];
    }
    for (place, edge) in made.edges.iter_mut().enumerate() {
        (edge.cost, edge.reward) = (sign * random.within(9_000, 10_000), i64::from(place == 0));
        edge.lower[0] = Some(random.within(21, 23) as u8);
    }
    if random.percent(50) {
        let place = random.below(made.locations.len());
        let cost = random.within(0, 2);
        made.edges.push(Edge { source: place, target: place, cost, ..Edge::default() });
    }
    made
}

/// A ring that the start leads to while no clock is reset: a lasso comes to it in the middle of a
/// wait, with which its cycle then ends.
pub fn ring_entered_late(random: &mut Random, shape: &Shape) -> Sheet {
    let mut made = ring(random, shape);
    let first = random.within(1, 11);
    for edge in &mut made.edges {
        (edge.source, edge.target) = (edge.source + 1, edge.target + 1);
        edge.lower[0] = Some(2 * random.within(first, 11) as u8);
    }
    made.locations.insert(0, Location { upper: [25; MOST_CLOCKS], ..Location::default() });
    let mut edge = Edge { target: 1, cost: cost(random, shape.prices), ..Edge::default() };
    edge.lower[0] = Some(2 * first as u8);
    made.edges.push(edge);
    made
}

/// Lets a fourth clock go with the first: it has the same bounds, and the same edges reset it.
fn let_fourth_follow(sheet: &mut Sheet) {
    if sheet.clocks == 4 {
        sheet.locations.iter_mut().for_each(|at| at.upper[3] = at.upper[0]);
        sheet.edges.iter_mut().for_each(|edge| edge.mask |= (edge.mask & 1) << 3);
    }
}

/// A ring that takes a unit, and two more clocks that each have to be reset at a number of their own:
/// a run comes back only where both are reset at once, after up to 132 rounds.
pub fn slow_ring(random: &mut Random, shape: &Shape) -> Sheet {
    let mut made = sheet(random, shape);
    let count = made.locations.len();
    let most = random.pick(&[6, 9, 11, 12, 12]);
    for (source, location) in made.locations.iter_mut().enumerate() {
        location.upper[..3].copy_from_slice(&[1, 2 * most + 1, 2 * most - 1]);
        let mut edge = Edge { source, target: (source + 1) % count, ..Edge::default() };
        (edge.cost, edge.reward) = (cost(random, shape.prices), reward(random, shape.prices));
        made.edges.push(edge);
    }
    made.locations[0].upper[0] = 3;
    (made.edges[0].mask, made.edges[0].lower[0]) = (1, Some(2));
    for (clock, units) in [(1, most), (2, most - 1)] {
        let mut edge = Edge { mask: 1 << clock, ..Edge::default() };
        (edge.cost, edge.reward) = (cost(random, shape.prices), reward(random, shape.prices));
        (edge.lower[clock], edge.upper[0]) = (Some(2 * units), Some(1));
        made.edges.push(edge);
    }
    let_fourth_follow(&mut made);
    made
}

/// One location, and three clocks that each have to be reset at a number of their own: a run comes
/// back only where all are reset at once, after 420 to 504 units.
pub fn slow_clocks(random: &mut Random, shape: &Shape) -> Sheet {
    let mut made = sheet(random, shape);
    let units = random.pick(&[[9, 8, 7], [11, 7, 6], [11, 8, 5], [11, 9, 5], [12, 7, 5]]);
    made.locations[0].upper[..3].copy_from_slice(&units.map(|units| 2 * units + 1));
    for (clock, units) in units.into_iter().enumerate() {
        let mut edge = Edge { mask: 1 << clock, ..Edge::default() };
        (edge.cost, edge.reward) = (cost(random, shape.prices), reward(random, shape.prices));
        edge.lower[clock] = Some(2 * units);
        made.edges.push(edge);
    }
    let_fourth_follow(&mut made);
    made
}

/// A slow ring that earns nothing, and can be left just before it would come back: the stem is long.
pub fn slow_ring_left(random: &mut Random, shape: &Shape) -> Sheet {
    let mut made = slow_ring(random, shape);
    for location in &mut made.locations {
        (location.cost, location.reward) = (random.within(0, 9), 0);
    }
    for edge in &mut made.edges {
        (edge.cost, edge.reward) = (random.within(0, 9), 0);
    }
    let (target, [_, longer, shorter, _]) = (made.locations.len(), made.locations[0].upper);
    made.locations.push(Location { upper: [3, 25, 25, 3], ..Location::default() });
    let mask = (1 << shape.clocks) - 1;
    let mut way = Edge { target, mask, ..Edge::default() };
    (way.lower[1], way.lower[2]) = (Some(longer - 1), Some(shorter - 1));
    let mut round = Edge { source: target, target, mask, ..Edge::default() };
    (round.cost, round.reward) = (cost(random, shape.prices), reward(random, shape.prices));
    round.lower[0] = Some(2);
    made.edges.extend([way, round]);
    made
}

/// A sheet with every field of the format, so of the greatest length.
pub fn long(random: &mut Random, shape: &Shape) -> Sheet {
    let mut made = sheet(random, shape);
    for location in &mut made.locations {
        (location.cost, location.reward) = (random.within(-9, -1), random.within(1, 9));
    }
    for (place, edge) in made.edges.iter_mut().enumerate() {
        (edge.cost, edge.reward) = (random.within(-9, -1), random.within(1, 9));
        edge.mask = edge.mask.max(1);
        if place < 16 {
            edge.lower[..shape.clocks].fill(Some(1));
            edge.upper[..shape.clocks].fill(Some(25));
        }
    }
    leave_out_copies(&mut made);
    made
}
