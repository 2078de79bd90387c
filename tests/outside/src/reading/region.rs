//! Nodes, their numbers and single steps: questions 15 and 16 of the specification.

use crate::reading::edition::{Edition, MOST_CLOCKS, WHOLE_BITS};
use crate::reading::sheet::{Edge, Location, Sheet};

#[derive(Clone, Copy)]
pub struct Node {
    pub location: usize,
    pub whole: [u8; MOST_CLOCKS],
    pub class: [u8; MOST_CLOCKS],
    pub corner: u8,
}

/// Where a step leads, and what it costs, earns and takes.
pub struct Step {
    pub to: Node,
    pub cost: i64,
    pub reward: i64,
    /// In units of time.
    pub units: i64,
}

pub const UNIT: u16 = 32;
pub const MOVE: u16 = 33;

impl Node {
    pub fn number(&self, edition: Edition) -> u64 {
        let mut number = u64::from(self.corner) | (self.location as u64) << edition.location_bit();
        for j in 0..edition.most_clocks() {
            let parts = u64::from(self.class[j]) | u64::from(self.whole[j]) << edition.rank_bits();
            number |= parts << edition.clock_bit(j);
        }
        number
    }

    fn ranks(&self) -> u8 {
        self.class.into_iter().max().unwrap_or(0)
    }
}

fn under(upper: u8, whole: u8, class: u8) -> bool {
    let (c, closed) = (upper / 2, upper % 2 == 1);
    if class == 0 && closed {
        whole <= c
    } else {
        whole < c
    }
}

fn over(lower: u8, whole: u8, class: u8) -> bool {
    let (c, strict) = (lower / 2, lower % 2 == 1);
    if class == 0 && strict {
        whole > c
    } else {
        whole >= c
    }
}

fn within(location: &Location, node: &Node, clocks: usize) -> bool {
    (0..clocks).all(|j| under(location.upper[j], node.whole[j], node.class[j]))
}

/// The node of this sheet that has the number, if there is one.
pub fn node_of(sheet: &Sheet, number: u64) -> Option<Node> {
    let edition = sheet.edition;
    let part = |first: u32, bits: u32| (number >> first & ((1 << bits) - 1)) as u8;
    let corner = part(0, edition.rank_bits());
    let location = (number >> edition.location_bit()) as usize;
    let mut node = Node { location, whole: [0; MOST_CLOCKS], class: [0; MOST_CLOCKS], corner };
    for j in 0..sheet.clocks {
        let first = edition.clock_bit(j);
        node.class[j] = part(first, edition.rank_bits());
        node.whole[j] = part(first + edition.rank_bits(), WHOLE_BITS);
    }
    let ranks = node.ranks();
    // A number with a bit of a clock that the sheet has not is another than that of the node read.
    let ok = node.number(edition) == number
        && location < sheet.locations.len()
        && (1..ranks).all(|rank| node.class.contains(&rank))
        && node.corner <= ranks
        && within(&sheet.locations[location], &node, sheet.clocks);
    ok.then_some(node)
}

fn guards_hold(edge: &Edge, node: &Node, clocks: usize) -> bool {
    (0..clocks).all(|j| {
        let (whole, class) = (node.whole[j], node.class[j]);
        edge.lower[j].is_none_or(|lower| over(lower, whole, class))
            && edge.upper[j].is_none_or(|upper| under(upper, whole, class))
    })
}

fn take_edge(sheet: &Sheet, node: &Node, edge: &Edge) -> Option<Step> {
    if edge.source != node.location || !guards_hold(edge, node, sheet.clocks) {
        return None;
    }
    let mut next = *node;
    next.location = edge.target;
    let mut left = [false; MOST_CLOCKS + 1];
    for j in 0..sheet.clocks {
        if edge.mask >> j & 1 == 1 {
            next.whole[j] = 0;
            next.class[j] = 0;
        }
        left[usize::from(next.class[j])] = true;
    }
    let close_up = |rank: u8| (1..=rank).filter(|&r| left[usize::from(r)]).count() as u8;
    next.class = next.class.map(close_up);
    next.corner = close_up(node.corner);
    Some(Step { to: next, cost: edge.cost, reward: edge.reward, units: 0 })
}

fn take_move(node: &Node, clocks: usize) -> Option<Node> {
    let mut next = *node;
    if node.class[..clocks].contains(&0) {
        next.class[..clocks].iter_mut().for_each(|class| *class += 1);
        next.corner += 1;
        return Some(next);
    }
    let ranks = node.ranks();
    if node.corner >= ranks {
        return None;
    }
    for j in 0..clocks {
        if node.class[j] == ranks {
            next.whole[j] += 1;
            next.class[j] = 0;
        }
    }
    Some(next)
}

fn take_unit(sheet: &Sheet, node: &Node) -> Option<Step> {
    if node.class[..sheet.clocks].contains(&0) || node.corner != node.ranks() {
        return None;
    }
    let here = &sheet.locations[node.location];
    let to = Node { corner: 0, ..*node };
    Some(Step { to, cost: here.cost, reward: here.reward, units: 1 })
}

pub fn step(sheet: &Sheet, node: &Node, code: u16) -> Option<Step> {
    let taken = match code {
        UNIT => take_unit(sheet, node),
        MOVE => take_move(node, sheet.clocks).map(|to| Step { to, cost: 0, reward: 0, units: 0 }),
        _ => sheet.edges.get(usize::from(code)).and_then(|edge| take_edge(sheet, node, edge)),
    };
    taken.filter(|Step { to, .. }| within(&sheet.locations[to.location], to, sheet.clocks))
}
