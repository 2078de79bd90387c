//! Questions 13 and 14, put to a graph whose nodes are all reached. A cycle without reward is called
//! idle here; since no reward is below 0, none of its arcs earns.

use crate::graphs::cyclic::{components, has_cycle};
use crate::graphs::weights::{least_from_anywhere, Arc, Weighted};

fn ends(arcs: &[Arc]) -> Vec<(usize, usize)> {
    arcs.iter().map(|arc| (arc.from, arc.to)).collect()
}

/// An arc lies on a cycle if and only if its ends are in one component.
pub fn some_cycle_earns(nodes: usize, arcs: &[Arc]) -> bool {
    let component = components(nodes, &ends(arcs));
    arcs.iter().any(|arc| arc.reward > 0 && component[arc.from] == component[arc.to])
}

/// The arcs that earn nothing, weighted by their costs.
fn idle_arcs(arcs: &[Arc]) -> Vec<Weighted> {
    let idle = arcs.iter().filter(|arc| arc.reward == 0);
    idle.map(|arc| (arc.from, arc.to, i128::from(arc.cost))).collect()
}

/// Whether a cycle without reward costs less than 0.
pub fn some_idle_cycle_gains(nodes: usize, arcs: &[Arc]) -> bool {
    least_from_anywhere(nodes, &idle_arcs(arcs)).is_none()
}

/// The places of idle arcs whose cycles are exactly the idle cycles that cost 0; none where an idle
/// cycle costs less.
pub fn free_arcs(nodes: usize, arcs: &[Arc]) -> Option<Vec<usize>> {
    let least = least_from_anywhere(nodes, &idle_arcs(arcs))?;
    let tight = |arc: &Arc| least[arc.from] + i128::from(arc.cost) == least[arc.to];
    Some((0..arcs.len()).filter(|&at| arcs[at].reward == 0 && tight(&arcs[at])).collect())
}

/// What the idle cycles of a graph cost.
#[derive(Clone, Copy, PartialEq)]
pub enum Idle {
    NoneThere,
    AllCost,
    AllFree,
    CostOrFree,
    /// Some cost less than 0, and none costs more.
    Gain,
    /// Some cost less than 0, and some cost more.
    GainOrCost,
}

impl Idle {
    pub fn gains(self) -> bool {
        matches!(self, Idle::Gain | Idle::GainOrCost)
    }

    pub fn named(self) -> &'static str {
        match self {
            Idle::NoneThere => "none",
            Idle::AllCost => "all cost",
            Idle::AllFree => "all free",
            Idle::CostOrFree => "some cost and some are free",
            Idle::Gain => "some gain and none costs",
            Idle::GainOrCost => "some gain and some cost",
        }
    }
}

pub fn idle_cycles(nodes: usize, arcs: &[Arc]) -> Idle {
    let idle = idle_arcs(arcs);
    let closed = |arcs: Vec<(usize, usize)>| has_cycle(nodes, &arcs);
    if !closed(idle.iter().map(|arc| (arc.0, arc.1)).collect()) {
        return Idle::NoneThere;
    }
    let against: Vec<Weighted> = idle.iter().map(|&(from, to, cost)| (from, to, -cost)).collect();
    let some_costs = least_from_anywhere(nodes, &against).is_none();
    let free = match free_arcs(nodes, arcs) {
        None => return if some_costs { Idle::GainOrCost } else { Idle::Gain },
        Some(places) => closed(places.iter().map(|&at| (arcs[at].from, arcs[at].to)).collect()),
    };
    match (some_costs, free) {
        (true, false) => Idle::AllCost,
        (false, _) => Idle::AllFree,
        (true, true) => Idle::CostOrFree,
    }
}
