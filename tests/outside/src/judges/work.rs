//! A work plan of the library against the answer expected here; its pairs are replayed.

use crate::judges::plan::Answer;
use crate::judges::verdict::{all_zero, same, untouched, Verdict};
use crate::library::answers::Planner;
use crate::library::marked::{self, PairBuffers};
use crate::random::Random;
use crate::reading::expected::Expected;
use crate::reading::sheet::Sheet;
use crate::runs::in_nths::START;
use crate::runs::replay::{replay, Pair};
use crate::runs::turned::turned;
use planner::calls::WorkNumbers;

/// The most pairs that a work plan has, and the least entries that each of its buffers needs.
pub const MOST_PAIRS: usize = 2049;

/// The pairs of an accepted work plan.
pub struct WorkPlan {
    pub stem: Vec<Pair>,
    pub cycle: Vec<Pair>,
}

/// A work plan that is judged; the pairs where it was accepted.
pub struct JudgedWork {
    pub refusal: u8,
    /// The buffers were longer than they have to be.
    pub longer: bool,
    pub plan: Option<WorkPlan>,
}

/// A short buffer gets 1, whatever the sheet; no buffer is written to, and the lengths are 0.
fn judge_short(planner: &Planner, bytes: &[u8], random: &mut Random) -> Verdict<()> {
    let mut lengths = [MOST_PAIRS; 2].map(|least| least + random.below(2) * random.below(100));
    lengths[random.below(2)] = marked::short_length(random, MOST_PAIRS);
    if random.percent(20) {
        lengths = [(); 2].map(|_| marked::short_length(random, MOST_PAIRS));
    }
    let mut buffers = marked::pair_buffers(random, lengths);
    let before = buffers.clone();
    let mut numbers = marked::work_numbers(random);
    let what = "short buffer of a work plan";
    same(what, planner.work(bytes, &mut buffers, &mut numbers), 1)?;
    same("short buffer of a work plan: the lengths", numbers, WorkNumbers::default())?;
    untouched(what, &buffers, &before)
}

/// The pairs of stem and cycle. All entries behind them are 0.
fn pairs_of(buffers: &PairBuffers, numbers: &WorkNumbers) -> Verdict<WorkPlan> {
    let WorkNumbers { stem, cycle } = *numbers;
    let most = MOST_PAIRS as i64;
    if stem < 1 || cycle < 1 || stem > most || cycle > most || stem + cycle > most {
        return Err(format!("work plan: a stem of {stem} and a cycle of {cycle} pairs"));
    }
    let PairBuffers { waits, edges } = buffers;
    let (first, all) = (stem as usize, (stem + cycle) as usize);
    all_zero("rest of the waits", &waits[all..])?;
    all_zero("rest of the edges", &edges[all..])?;
    let pairs = |from: usize, to: usize| (from..to).map(|at| (waits[at], edges[at])).collect();
    Ok(WorkPlan { stem: pairs(0, first), cycle: pairs(first, all) })
}

/// The stem is a run from the start, the cycle one from there that comes back, earns, and has the
/// ratio p/q exactly. Both end with the same edge.
fn judge_runs(sheet: &Sheet, plan: &WorkPlan, p: i64, q: i64) -> Verdict<()> {
    let last = |pairs: &[Pair]| pairs[pairs.len() - 1].1;
    let (stem_end, cycle_end) = (last(&plan.stem), last(&plan.cycle));
    if stem_end != cycle_end {
        let ends = format!("the stem ends with edge {stem_end}, the cycle with {cycle_end}");
        return Err(format!("work plan: {ends}"));
    }
    let stem = replay(sheet, START, &plan.stem, "stem")?;
    let cycle = replay(sheet, stem.state, &plan.cycle, "cycle")?;
    same("work plan: the state that the cycle comes back to", cycle.state, stem.state)?;
    let (cost, reward) = (cycle.cost, cycle.reward);
    if reward < 1 {
        return Err(format!("work plan: the cycle earns {reward}, and costs {cost}"));
    }
    if cost * i128::from(q) != reward * i128::from(p) {
        return Err(format!("work plan: the cycle has {cost}/{reward}, the ratio is {p}/{q}"));
    }
    Ok(())
}

/// The pairs are those of the lasso that the library's plan has, turned here.
fn judge_pairs(plan: &WorkPlan, answer: &Answer) -> Verdict<()> {
    let (stem, cycle) = turned(&answer.stem, &answer.cycle)
        .ok_or("work plan: the cycle of the lasso has no edge")?;
    same("stem of the turned lasso", &plan.stem, &stem)?;
    same("cycle of the turned lasso", &plan.cycle, &cycle)
}

/// Judges every part of the work plan of a sheet. The plan of the sheet is judged, and `answer` is
/// what it answered where it was accepted.
pub fn judge_work(
    planner: &Planner,
    bytes: &[u8],
    expected: &Expected,
    answer: Option<&Answer>,
    random: &mut Random,
) -> Verdict<JudgedWork> {
    judge_short(planner, bytes, random)?;
    let longer = random.percent(50);
    let lengths = [0; 2].map(|_| MOST_PAIRS + if longer { 1 + random.below(1500) } else { 0 });
    let mut buffers = marked::pair_buffers(random, lengths);
    let before = buffers.clone();
    let mut numbers = marked::work_numbers(random);
    let refusal = planner.work(bytes, &mut buffers, &mut numbers);
    same("refusal of the work plan", refusal, expected.work_refusal())?;
    if refusal == 0 {
        let sheet = expected.sheet.as_ref().expect("an accepted sheet is read");
        let answer = answer.expect("a sheet with a work plan has a plan");
        let plan = pairs_of(&buffers, &numbers)?;
        judge_runs(sheet, &plan, answer.p, answer.q)?;
        judge_pairs(&plan, answer)?;
        return Ok(JudgedWork { refusal, longer, plan: Some(plan) });
    }
    same("lengths of a refused work plan", numbers, WorkNumbers::default())?;
    if expected.sheet.is_none() {
        untouched("refused work plan", &buffers, &before)?;
    } else {
        all_zero("waits of a refused work plan", &buffers.waits)?;
        all_zero("edges of a refused work plan", &buffers.edges)?;
    }
    Ok(JudgedWork { refusal, longer, plan: None })
}
