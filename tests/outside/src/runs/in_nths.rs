//! Runs in nths and their loops. No region is used here: a state is a location and clock values
//! in nths.
//!
//! Delays of one nth are enough. Bounds are upper bounds only, so a delay of d nths that ends within
//! them passes within them too, and is d delays of one nth with the same cost and reward. A delay of
//! 0 is a loop that earns nothing and costs 0, and never below a ratio. Bounds keep the values at 12
//! times n at most, so the states are finite, and the loops of runs are the cycles of their graph.

use crate::graphs::weights::{least_weights, weighted, Arc};
use crate::reading::edition::MOST_CLOCKS;
use crate::reading::sheet::{Edge, Sheet};
use std::collections::HashMap;

#[derive(Clone, Copy, Debug, PartialEq, Eq, Hash)]
pub struct State {
    pub location: usize,
    values: [u32; MOST_CLOCKS],
}

pub const START: State = State { location: 0, values: [0; MOST_CLOCKS] };

pub struct Runs {
    pub states: usize,
    /// Arcs between states, with n times the cost and n times the reward of a member.
    pub members: Vec<Arc>,
    /// Whether each of them is a delay.
    pub delays: Vec<bool>,
}

/// A sheet with more states than this is left alone.
const MOST_STATES: usize = 30_000;

fn at_most(upper: u8, value: u32, n: u32) -> bool {
    let bound = u32::from(upper / 2) * n;
    value < bound || upper % 2 == 1 && value == bound
}

fn at_least(lower: u8, value: u32, n: u32) -> bool {
    let bound = u32::from(lower / 2) * n;
    value > bound || lower % 2 != 1 && value == bound
}

/// Whether the values are within the bounds of the location.
pub fn admitted(sheet: &Sheet, state: &State, n: u32) -> bool {
    let upper = &sheet.locations[state.location].upper;
    (0..sheet.clocks).all(|j| at_most(upper[j], state.values[j], n))
}

/// The state that the edge leads to, if its source is here and its guards hold.
pub fn after_edge(sheet: &Sheet, state: &State, edge: &Edge, n: u32) -> Option<State> {
    let holds = |j: usize| {
        edge.lower[j].is_none_or(|lower| at_least(lower, state.values[j], n))
            && edge.upper[j].is_none_or(|upper| at_most(upper, state.values[j], n))
    };
    if edge.source != state.location || !(0..sheet.clocks).all(holds) {
        return None;
    }
    let mut next = State { location: edge.target, ..*state };
    for j in (0..sheet.clocks).filter(|j| edge.mask >> j & 1 == 1) {
        next.values[j] = 0;
    }
    Some(next)
}

pub fn after_delay(sheet: &Sheet, state: &State, nths: u32) -> State {
    let mut next = *state;
    next.values[..sheet.clocks].iter_mut().for_each(|value| *value += nths);
    next
}

/// All states that runs in nths reach, or none where they are too many.
pub fn explore(sheet: &Sheet, n: u32) -> Option<Runs> {
    let mut found = HashMap::from([(START, 0)]);
    let mut states = vec![START];
    let (mut members, mut delays) = (Vec::new(), Vec::new());
    let mut from = 0;
    while from < states.len() {
        let state = states[from];
        let here = &sheet.locations[state.location];
        let mut ways = vec![(after_delay(sheet, &state, 1), here.cost, here.reward, true)];
        for edge in &sheet.edges {
            let next = after_edge(sheet, &state, edge, n);
            let (cost, reward) = (edge.cost * i64::from(n), edge.reward * i64::from(n));
            ways.extend(next.map(|next| (next, cost, reward, false)));
        }
        ways.retain(|way| admitted(sheet, &way.0, n));
        for (next, cost, reward, delay) in ways {
            let to = *found.entry(next).or_insert_with(|| {
                states.push(next);
                states.len() - 1
            });
            members.push(Arc { from, to, cost, reward });
            delays.push(delay);
        }
        if states.len() > MOST_STATES {
            return None;
        }
        from += 1;
    }
    Some(Runs { states: states.len(), members, delays })
}

/// The least weights of runs to each state at p/q, or none where some loop weighs less than 0: it
/// earns and has a ratio below, or it earns nothing and costs less than 0.
pub fn least_runs(runs: &Runs, p: i128, q: i128) -> Option<Vec<i128>> {
    least_weights(runs.states, &weighted(&runs.members, p, q))
}

pub fn loop_below(runs: &Runs, p: i128, q: i128) -> bool {
    least_runs(runs, p, q).is_none()
}
