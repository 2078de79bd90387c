//! Sheets for question 18: with no strict bound or guard, with one, and with a fault beside some.

use crate::random::Random;
use crate::reading::edition::MOST_CLOCKS;
use crate::reading::expected::refusal_but_for_17;
use crate::reading::sheet::{Edge, Location, Sheet};
use crate::reading::strict::Byte;
use crate::reading::write::write;
use crate::sheets::built::{long, ring, ring_entered_late, slow_clocks, slow_ring, slow_ring_left};
use crate::sheets::generate::{leave_out_copies, sheet, Shape};
use crate::sheets::shapes::{shape_of, shorter_shape};
use crate::sheets::twice::{lay_fault, paste};

/// Puts the nearest closed byte in the place of each strict one.
fn close(sheet: &mut Sheet) {
    for upper in sheet.locations.iter_mut().flat_map(|at| &mut at.upper) {
        *upper |= 1;
    }
    for edge in &mut sheet.edges {
        edge.upper.iter_mut().flatten().for_each(|upper| *upper |= 1);
        edge.lower.iter_mut().flatten().for_each(|lower| *lower = (*lower + 1).min(25) & !1);
    }
    leave_out_copies(sheet);
}

/// A sheet like one of these kinds, but with no strict bound and no strict guard.
fn closed_like(random: &mut Random, kinds: &[&'static str]) -> Sheet {
    let like = random.pick(kinds);
    let shape = shape_of(random, like);
    let mut made = match like {
        "ring" => ring(random, &shape),
        "ring entered late" => ring_entered_late(random, &shape),
        "slow ring" => slow_ring(random, &shape),
        "slow ring left" => slow_ring_left(random, &shape),
        "slow clocks" => slow_clocks(random, &shape),
        // As many edges as a sheet may have.
        "large" => sheet(random, &Shape { edges: 32, ..shape }),
        _ => sheet(random, &shape),
    };
    close(&mut made);
    made
}

pub fn closed(random: &mut Random) -> Sheet {
    if random.percent(15) {
        let (slow, left) = ("slow ring", "slow ring left");
        return closed_like(random, &[slow, slow, left, left, "slow clocks"]);
    }
    let (large, late) = ("large", "ring entered late");
    closed_like(random, &["small", "tiny", large, large, "idle", "extreme", "ring", late])
}

/// Any of this number of places, half of the time the last one.
fn some_place(random: &mut Random, count: usize) -> usize {
    if random.percent(50) {
        count - 1
    } else {
        random.below(count)
    }
}

/// Adds a location that no edge enters, at any place but the first. Its number.
fn add_location(random: &mut Random, sheet: &mut Sheet) -> usize {
    let place = 1 + some_place(random, sheet.locations.len());
    let upper = [(); MOST_CLOCKS].map(|_| random.pick(&[1, 5, 25]));
    sheet.locations.insert(place, Location { upper, ..Location::default() });
    for edge in &mut sheet.edges {
        edge.source += usize::from(edge.source >= place);
        edge.target += usize::from(edge.target >= place);
    }
    place
}

/// Lays a strict bound, in a location that no run comes to if asked and if there is room for one.
fn lay_bound(random: &mut Random, sheet: &mut Sheet, apart: bool) {
    let room = sheet.locations.len() < 12;
    let place = if apart && room {
        add_location(random, sheet)
    } else {
        some_place(random, sheet.locations.len())
    };
    let upper = &mut sheet.locations[place].upper[random.below(sheet.clocks)];
    *upper = if random.percent(50) && *upper < 25 { *upper + 1 } else { *upper - 1 };
}

/// An edge that no run takes: it leaves a location that no run comes to, or its guards of a clock
/// leave no value to it.
fn edge_apart(random: &mut Random, sheet: &mut Sheet, clock: usize) -> Edge {
    let target = random.below(sheet.locations.len());
    let mut edge = Edge { target, mask: 1 << clock, ..Edge::default() };
    edge.reward = random.within(0, 9);
    if sheet.locations.len() < 12 && random.percent(50) {
        edge.source = add_location(random, sheet);
        edge.target += usize::from(edge.target >= edge.source);
    } else {
        edge.source = random.below(sheet.locations.len());
        let c = random.within(1, 11) as u8;
        (edge.lower[clock], edge.upper[clock]) = (Some(2 * c + 2), Some(2 * c - 1));
    }
    edge
}

/// Lays a strict guard, at an edge that no run takes if asked.
fn lay_guard(random: &mut Random, sheet: &mut Sheet, byte: Byte, apart: bool) {
    let clock = random.below(sheet.clocks);
    let mut place = random.below(sheet.edges.len());
    if apart {
        let edge = edge_apart(random, sheet, clock);
        if sheet.edges.len() < 32 {
            place = random.below(sheet.edges.len() + 1);
            sheet.edges.insert(place, edge);
        } else {
            sheet.edges[place] = edge;
        }
    }
    let edge = &mut sheet.edges[place];
    if byte == Byte::UpperGuard {
        edge.upper[clock] = Some(edge.upper[clock].unwrap_or(25) - 1);
    } else {
        edge.lower[clock] = Some(edge.lower[clock].unwrap_or(0) + 1);
    }
}

fn lay_one(random: &mut Random) -> Sheet {
    let mut made = closed_like(random, &["small", "tiny", "large", "large"]);
    let apart = random.percent(50);
    match random.pick(&[Byte::Bound, Byte::UpperGuard, Byte::LowerGuard]) {
        Byte::Bound => lay_bound(random, &mut made, apart),
        byte => lay_guard(random, &mut made, byte, apart),
    }
    made
}

/// A sheet with one strict bound or guard, whose plan most often is accepted.
pub fn one_strict(random: &mut Random) -> Sheet {
    let mut made = lay_one(random);
    for _ in 0..20 {
        if refusal_but_for_17(&made) == 0 {
            break;
        }
        made = lay_one(random);
    }
    made
}

/// Strict guards, and a fault that the check finds.
pub fn strict_and_fault(random: &mut Random) -> Vec<u8> {
    let shape = shorter_shape(random);
    let mut made = long(random, &shape);
    if random.percent(10) {
        let distance = 1 + random.below(made.edges.len() - 1);
        paste(random, &mut made.edges, distance);
        return write(&made).bytes;
    }
    let written = write(&made);
    let edge = random.pick(&written.records[made.locations.len()..]);
    lay_fault(random, &written, &[edge])
}
