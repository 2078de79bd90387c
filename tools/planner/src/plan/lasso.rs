//! The lasso of a plan, stepped by the proved step and summed.

use super::Plan;
use crate::certificate::Certificate;
use crate::schedule::Sum;
use crate::stop::Stop;
use crate::walk::{walk, Stuck, Walk};

/// The steps of a lasso, which have to be allowed.
pub fn stepped(bytes: &[u8], from: u64, codes: &[u16]) -> Result<Walk, Stop> {
    walk(bytes, from, codes)
        .map_err(|Stuck { node, code, refusal, .. }| Stop::Difference(format!("code {code} of the lasso at node {node} is {refusal}")))
}

/// A cycle that is the plan's own takes, costs and earns, in nths, what the library answers.
pub fn adds_up(plan: &Plan, what: &str, nths: i64, found: Sum) -> Result<(), Stop> {
    if found == plan.cycle.times(nths) {
        return Ok(());
    }
    let (found, told) = (found.words(nths), plan.cycle.words(1));
    Err(Stop::Difference(format!("the cycle of the {what} {found}, and the library answers that it {told}")))
}

/// The stem and the cycle of a plan: that they walk, close, earn and have the ratio, and that the cycle has the sums of the answer.
pub fn examined(plan: &Plan) -> Result<(), Stop> {
    let differs = |what: String| Err(Stop::Difference(what));
    let Certificate { sheet, p, q, nodes, .. } = &plan.certificate;
    let stem = stepped(sheet, 0, &plan.certificate.stem)?;
    let cycle = stepped(sheet, stem.end, &plan.certificate.cycle)?;
    if cycle.end != stem.end {
        return differs(format!("the cycle of the lasso begins at node {} and ends at {}", stem.end, cycle.end));
    }
    if let Some(node) = stem.nodes.iter().chain(&cycle.nodes).find(|node| nodes.binary_search(node).is_err()) {
        return differs(format!("node {node} of the lasso is not among the nodes of the plan"));
    }
    let (cost, reward) = (i128::from(cycle.sum.cost), i128::from(cycle.sum.reward));
    if reward <= 0 || i128::from(*q) * cost != i128::from(*p) * reward {
        return differs(format!("the cycle costs {cost} and earns {reward}, and the ratio is {p}/{q}"));
    }
    adds_up(plan, "lasso", 1, cycle.sum)
}

/// The cycle turned to begin just after its first edge, the stem grown by what comes before.
pub fn turned(stem: &[u16], cycle: &[u16]) -> Option<(Vec<u16>, Vec<u16>)> {
    let first = 1 + cycle.iter().position(|code| *code < planner::UNIT)?;
    let (head, tail) = cycle.split_at(first);
    Some(([stem, head].concat(), [tail, head].concat()))
}
