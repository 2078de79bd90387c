//! A lasso: it is stepped here and by the library, closes, is simple, and its cycle earns, has exactly
//! the ratio, and takes, costs and earns exactly what the plan tells.

use crate::judges::step::told;
use crate::judges::verdict::{all_zero, same, Verdict};
use crate::library::answers::Planner;
use crate::library::marked::Buffers;
use crate::reading::region::{node_of, step, Step};
use crate::reading::sheet::Sheet;
use planner::calls::{PlanNumbers, StepNumbers};
use std::collections::HashSet;

/// What no step writes.
const UNWRITTEN: StepNumbers =
    StepNumbers { number: u64::MAX, cost: i64::MIN, reward: i64::MIN, units: i64::MIN };

/// What steps take, cost and earn together.
#[derive(Default)]
pub struct Sums {
    pub units: i128,
    pub cost: i128,
    pub reward: i128,
}

impl Sums {
    fn add(&mut self, step: &Step) {
        self.units += i128::from(step.units);
        self.cost += i128::from(step.cost);
        self.reward += i128::from(step.reward);
    }
}

/// A step along the lasso, taken here and by the library.
fn take(planner: &Planner, bytes: &[u8], sheet: &Sheet, number: u64, code: u16) -> Verdict<Step> {
    let node = node_of(sheet, number).expect("a lasso is stepped from node to node");
    let taken = step(sheet, &node, code)
        .ok_or_else(|| format!("lasso: code {code} is not allowed at node {number}"))?;
    let mut numbers = UNWRITTEN;
    let refusal = planner.lasso_step(bytes, number, code, &mut numbers);
    same("lasso: the library's own step", (refusal, numbers), (0, told(&taken, sheet.edition)))?;
    Ok(taken)
}

fn judge_cycle(cycle: &Sums, numbers: &PlanNumbers) -> Verdict<()> {
    let Sums { units, cost, reward } = *cycle;
    let PlanNumbers { p, q, .. } = *numbers;
    if reward < 1 {
        return Err(format!("lasso: its cycle earns {reward}, and costs {cost}"));
    }
    if i128::from(q) * cost != i128::from(p) * reward {
        return Err(format!("lasso: its cycle has {cost}/{reward}, the ratio is {p}/{q}"));
    }
    same("units of the cycle", numbers.units.into(), units)?;
    same("cost of the cycle", numbers.cost.into(), cost)?;
    same("reward of the cycle", numbers.reward.into(), reward)
}

/// Judges the lasso of a plan. What its stem and its cycle take, cost and earn.
pub fn judge_lasso(
    planner: &Planner,
    bytes: &[u8],
    sheet: &Sheet,
    buffers: &Buffers,
    numbers: &PlanNumbers,
) -> Verdict<(Sums, Sums)> {
    let PlanNumbers { n, s, m, .. } = *numbers;
    if s < 0 || m < 1 || s > n || m > n || s + m > n {
        return Err(format!("lasso: a stem of {s} and a cycle of {m} steps with {n} nodes"));
    }
    let (first, length) = (s as usize, (s + m) as usize);
    all_zero("rest of the steps", &buffers.steps[length..])?;
    let mut met = HashSet::from([0]);
    let (mut number, mut closing) = (0, 0);
    let (mut stem, mut cycle) = (Sums::default(), Sums::default());
    for (place, &code) in buffers.steps[..length].iter().enumerate() {
        if place == first {
            closing = number;
        }
        let taken = take(planner, bytes, sheet, number, code)?;
        let part = if place < first { &mut stem } else { &mut cycle };
        part.add(&taken);
        number = taken.to.number(sheet.edition);
        if !met.insert(number) && place + 1 < length {
            return Err(format!("lasso: node {number} is met twice"));
        }
    }
    same("lasso: the node where it closes", number, closing)?;
    judge_cycle(&cycle, numbers)?;
    Ok((stem, cycle))
}
