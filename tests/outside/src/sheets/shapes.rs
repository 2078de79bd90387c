//! The shapes of the kinds of random sheets.

use crate::random::Random;
use crate::reading::edition::Edition;
use crate::sheets::generate::{Prices, Shape};

/// An edition, and a number of clocks that it allows; of edition 2 half of the time four.
pub fn some_clocks(random: &mut Random) -> (Edition, usize) {
    match random.below(2) {
        0 => (Edition::First, 1 + random.below(3)),
        _ => (Edition::Second, random.pick(&[1, 2, 3, 4, 4, 4])),
    }
}

pub fn small_shape(random: &mut Random) -> Shape {
    let (edition, clocks) = some_clocks(random);
    let locations = 1 + random.below(5);
    Shape {
        edition,
        clocks,
        locations,
        edges: locations + 1 + random.below(8),
        bound: random.within(2, 5),
        room: 1500,
        strict: random.pick(&[0, 30, 50]),
        guards: random.pick(&[10, 30]),
        resets: random.pick(&[35, 60]),
        earning: random.pick(&[100, 100, 70]),
        rates: 70,
        prices: random.pick(&[Prices::Small, Prices::Wide, Prices::Negative]),
        forward: false,
    }
}

pub fn tiny_shape(random: &mut Random) -> Shape {
    let locations = 1 + random.below(2);
    let edges = locations + random.below(3);
    let bound = random.within(1, 3);
    Shape { locations, edges, bound, room: 600, ..small_shape(random) }
}

fn large_shape(random: &mut Random) -> Shape {
    let locations = 2 + random.below(11);
    let edges = (locations + 2 + random.below(20)).min(32);
    let (bound, room, guards, earning) = (12, 2000, 10, 100);
    Shape { locations, edges, bound, room, guards, earning, ..small_shape(random) }
}

fn ring_shape(random: &mut Random, locations: usize) -> Shape {
    Shape {
        locations,
        edges: 0,
        bound: 12,
        room: 100_000,
        rates: 100,
        prices: random.pick(&[Prices::Wide, Prices::Extreme]),
        ..small_shape(random)
    }
}

/// The shape of a sheet whose first three clocks are reset apart.
fn slow_shape(random: &mut Random, locations: usize) -> Shape {
    let ring = ring_shape(random, locations);
    Shape { clocks: ring.clocks.max(3), ..ring }
}

fn long_shape(random: &mut Random) -> Shape {
    let small = small_shape(random);
    Shape {
        clocks: small.edition.most_clocks(),
        locations: 12,
        edges: 32,
        guards: 100,
        resets: 70,
        earning: 100,
        prices: Prices::Negative,
        ..small
    }
}

/// The shape of a long sheet but for its counts.
pub fn shorter_shape(random: &mut Random) -> Shape {
    let (locations, edges) = (2 + random.below(3), 4 + random.below(20));
    Shape { locations, edges, ..long_shape(random) }
}

pub fn shape_of(random: &mut Random, kind: &str) -> Shape {
    let small = small_shape(random);
    match kind {
        "tiny" => tiny_shape(random),
        "strict" => Shape { strict: 100, ..small },
        "large" => large_shape(random),
        "too many" => Shape {
            clocks: small.edition.most_clocks(),
            room: 100_000,
            guards: 5,
            bound: random.within(4, 12),
            edges: small.locations + 6,
            resets: 40,
            ..small
        },
        "no cycle" => Shape { forward: random.percent(70), guards: 80, ..small },
        "idle" => Shape { earning: random.pick(&[20, 50, 80]), guards: 20, ..small },
        "extreme" => Shape { prices: Prices::Extreme, earning: 100, rates: 100, ..small },
        "ring" => {
            let locations = 2 + random.below(11);
            ring_shape(random, locations)
        }
        "ring entered late" => {
            let locations = 1 + random.below(11);
            ring_shape(random, locations)
        }
        "slow ring" | "slow ring left" => {
            let locations = 1 + random.below(11);
            slow_shape(random, locations)
        }
        "slow clocks" => slow_shape(random, 1),
        "dear ring" => {
            let locations = 11 + random.below(2);
            ring_shape(random, locations)
        }
        "long" | "all edges alike" => long_shape(random),
        "edge twice" => {
            let like = random.pick(&["small", "tiny", "large", "too many", "no cycle", "idle"]);
            shape_of(random, like)
        }
        _ => small,
    }
}
