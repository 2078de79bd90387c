//! Nodes: their numbers taken apart, by the layout of the edition, and the steps between them.

use crate::sheet::{edition::Edition, limits::CLOCKS, Sheet};
use crate::stop::Stop;
use planner::Step;

/// The refusal of a code that is not allowed at a node.
const NOT_ALLOWED: u8 = 16;

/// The bits of a clock's whole part in a node number, and of a location.
const WHOLE_BITS: usize = 4;

/// A location, a region and a corner. Clocks that the edition does not have are at 0.
#[derive(Clone, Copy, Debug, PartialEq, Eq)]
pub struct Node {
    pub location: usize,
    pub whole: [i64; CLOCKS],
    pub class: [u8; CLOCKS],
    pub corner: u8,
}

/// From the low bits up: the corner, of each clock its class and its whole part, the location.
pub fn node(edition: Edition, number: u64) -> Node {
    let width = edition.class_bits();
    let part = |from: usize, bits: usize| (number >> from & ((1 << bits) - 1)) as u8;
    let mut found = Node { location: 0, whole: [0; CLOCKS], class: [0; CLOCKS], corner: part(0, width) };
    let mut at = width;
    for j in 0..edition.clocks() {
        found.class[j] = part(at, width);
        found.whole[j] = part(at + width, WHOLE_BITS).into();
        at += width + WHOLE_BITS;
    }
    found.location = part(at, WHOLE_BITS).into();
    found
}

/// The value of a clock at the node's corner point.
pub fn at_corner(node: &Node, clock: usize) -> i64 {
    node.whole[clock] + i64::from(node.class[clock] > node.corner)
}

/// Whether the region is a single point, and so its corner point a state of runs.
pub fn is_point(node: &Node) -> bool {
    node.class.iter().all(|class| *class == 0)
}

/// The allowed steps of a node that is reached, with their codes: edges that leave its location, a unit of delay and a move.
pub fn steps(sheet: &Sheet, bytes: &[u8], number: u64) -> Result<Vec<(u16, Step)>, Stop> {
    let location = node(sheet.edition, number).location;
    let leaves = |code: &u16| sheet.edges[usize::from(*code)].source == location;
    let mut found = Vec::new();
    for code in (0..sheet.edges.len() as u16).filter(leaves).chain([planner::UNIT, planner::MOVE]) {
        match planner::step(bytes, number, code) {
            Ok(step) => found.push((code, step)),
            Err(refusal) if refusal.number() == NOT_ALLOWED => {}
            Err(refusal) => return Err(Stop::Difference(format!("the step at node {number}, which is reached, is {refusal}"))),
        }
    }
    Ok(found)
}

/// An allowed step from one node of a list to another, by their places.
#[derive(Clone, Copy, Debug)]
pub struct Arc {
    pub from: usize,
    pub code: u16,
    pub to: usize,
    pub cost: i64,
    pub reward: i64,
}
