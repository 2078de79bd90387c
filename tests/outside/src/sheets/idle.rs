//! Idle cycles, those without reward, in random sheets: what they cost is laid.

use crate::random::Random;
use crate::reading::edition::MOST_CLOCKS;
use crate::reading::sheet::{Edge, Location, Sheet};
use crate::sheets::generate::{cost, reward, Prices};

/// What the steps without reward are laid to cost, but for the heights.
#[derive(Clone, Copy)]
pub enum Laid {
    Cost,
    CostOrFree,
    Free,
    GainOrCost,
}

fn idle_cost(random: &mut Random, laid: Laid, prices: Prices) -> i64 {
    let some = cost(random, prices).abs().clamp(1, 9000);
    match laid {
        Laid::Cost => some,
        Laid::CostOrFree => some * random.pick(&[0, 1]),
        Laid::Free => 0,
        Laid::GainOrCost => some * random.pick(&[-1, -1, 1]),
    }
}

/// Lays the costs of all steps without reward. An edge costs the height of its target more and that
/// of its source less: it may then cost or gain by itself, and a cycle costs what it did.
pub fn lay(random: &mut Random, sheet: &mut Sheet, laid: Laid, prices: Prices) {
    let most = random.pick(&[0, 9, 450]);
    let heights: Vec<i64> = sheet.locations.iter().map(|_| random.within(-most, most)).collect();
    for location in sheet.locations.iter_mut().filter(|at| at.reward == 0) {
        location.cost = idle_cost(random, laid, prices);
    }
    for edge in sheet.edges.iter_mut().filter(|edge| edge.reward == 0) {
        let higher = heights[edge.target] - heights[edge.source];
        edge.cost = idle_cost(random, laid, prices) + higher;
    }
}

/// Takes the rewards of all locations and of half of the edges away.
pub fn take_some_rewards(random: &mut Random, sheet: &mut Sheet) {
    sheet.locations.iter_mut().for_each(|at| at.reward = 0);
    sheet.edges.iter_mut().for_each(|edge| edge.reward *= random.pick(&[0, 1]));
}

/// Takes all rewards away, so that each cycle is idle. Some sheets get an edge that earns, to a new
/// location that no edge leaves.
pub fn take_rewards(random: &mut Random, sheet: &mut Sheet, prices: Prices) {
    sheet.locations.iter_mut().for_each(|at| at.reward = 0);
    sheet.edges.iter_mut().for_each(|edge| edge.reward = 0);
    let target = sheet.locations.len();
    if random.percent(50) && target < 12 && sheet.edges.len() < 32 {
        let source = random.below(target);
        sheet.locations.push(Location { upper: [25; MOST_CLOCKS], ..Location::default() });
        let (cost, reward) = (cost(random, prices), reward(random, prices));
        sheet.edges.push(Edge { source, target, cost, reward, ..Edge::default() });
    }
}
