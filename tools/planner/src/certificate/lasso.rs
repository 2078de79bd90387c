//! Rules of the ratio and the lasso.

use super::reading::node_words;
use super::verify::{broken, Broken};
use super::Certificate;
use crate::fraction::common_divisor;
use crate::schedule::Sum;
use crate::walk::{walk, Stuck, Walk};

/// The largest number of steps.
const STEPS: usize = planner::LEAST_ENTRIES;

/// What 2,048 steps cost or earn at most.
const LARGEST: i64 = 20_480_000;

pub fn has_ratio(sheet: &[u8], certificate: &Certificate) -> Result<(), Broken> {
    let Certificate { p, q, stem, cycle, .. } = certificate;
    lengths(stem.len(), cycle.len())?;
    ratio(*p, *q)?;
    let start = walked(sheet, 0, stem, "stem-allowed", "the stem")?.end;
    let round = walked(sheet, start, cycle, "cycle-allowed", "the cycle")?;
    if round.end != start {
        let (start, end) = (node_words(sheet, start), node_words(sheet, round.end));
        return broken("cycle-closes", format!("the cycle begins at {start} and ends at {end}"));
    }
    let Sum { cost, reward, .. } = round.sum;
    if reward <= 0 {
        return broken("cycle-earns", format!("the cycle's reward is {reward}"));
    }
    if i128::from(*q) * i128::from(cost) != i128::from(*p) * i128::from(reward) {
        return broken("cycle-has-ratio", format!("the cycle costs {cost} and earns {reward}, which is not the ratio {p}/{q}"));
    }
    Ok(())
}

fn lengths(stem: usize, cycle: usize) -> Result<(), Broken> {
    if cycle == 0 {
        return broken("lasso-length", "the cycle has no step".to_string());
    }
    if stem + cycle > STEPS {
        return broken("lasso-length", format!("stem and cycle have {} steps, and {STEPS} are the most", stem + cycle));
    }
    Ok(())
}

fn ratio(p: i64, q: i64) -> Result<(), Broken> {
    if !(-LARGEST..=LARGEST).contains(&p) {
        return broken("ratio-range", format!("p is {p}, and has to be -{LARGEST} to {LARGEST}"));
    }
    if !(1..=LARGEST).contains(&q) {
        return broken("ratio-range", format!("q is {q}, and has to be 1 to {LARGEST}"));
    }
    match common_divisor(p.into(), q.into()) {
        1 => Ok(()),
        divisor => broken("lowest-terms", format!("{p}/{q} is not in lowest terms: {divisor} divides both")),
    }
}

fn walked(sheet: &[u8], from: u64, codes: &[u16], rule: &'static str, what: &str) -> Result<Walk, Broken> {
    walk(sheet, from, codes).or_else(|Stuck { place, node, code, .. }| {
        broken(rule, format!("step {} of {what}: code {code} is not allowed at {}", place + 1, node_words(sheet, node)))
    })
}
