//! How far a run in nths, repeating or not, undercuts the ratio: none weighs less than n times the
//! smallest potential, and where no bound and no guard is strict one weighs exactly that.

use crate::coverage::tally::Tally;
use crate::graphs::cyclic::components;
use crate::graphs::weights::{weighted, Weighted};
use crate::judges::verdict::Verdict;
use crate::library::answers::Answered;
use crate::reading::sheet::Sheet;
use crate::reading::strict::all_closed;
use crate::runs::in_nths::Runs;

/// Each kind and the least number of its cases among the sheets of `nths`.
pub const PROMISED: [(&str, u64); 18] = [
    ("smallest potential 0: all closed", 400),
    ("smallest potential 0: some strict", 800),
    ("smallest potential below 0, all closed: met with n = 1", 450),
    ("smallest potential below 0, all closed: p below 0", 350),
    ("smallest potential below 0, all closed: q above 1", 400),
    ("smallest potential below 0, some strict: met with n = 1", 500),
    ("smallest potential below 0, some strict: met with n = 2", 8),
    ("smallest potential below 0, some strict: not met with n up to 4", 500),
    ("smallest potential below 0, some strict: p below 0", 800),
    ("smallest potential below 0, some strict: q above 1", 900),
    ("smallest potential below 0, some strict: runs in whole units are undercut first with n = 2", 500),
    ("smallest potential below 0, some strict: runs in whole units are undercut first with n = 3", 6),
    ("smallest potential below 0, some strict: runs in whole units are undercut first with n = 4", 3),
    ("least runs end: with a delay", 500),
    ("least runs end: with an edge", 400),
    ("least runs end: some with a delay, some with an edge", 5),
    ("least runs end: none on a loop of weight 0", 400),
    ("least runs end: some on a loop of weight 0", 500),
];

fn least(weights: &[i128]) -> i128 {
    *weights.iter().min().expect("the start is a state")
}

/// A run in whole units, with its delays times n, is a run in nths that weighs n times as much; so
/// where all is closed some run weighs n times the smallest potential for each n.
fn judge_least(n: i128, weight: i128, potential: i128, closed: bool) -> Verdict<()> {
    let told = format!("{n} times the smallest potential {potential}");
    if weight < n * potential {
        return Err(format!("a run in nths, n = {n}, weighs {weight}, below {told}"));
    }
    if closed && weight > n * potential {
        return Err(format!("no run in nths, n = {n}, weighs {told}: the least weighs {weight}"));
    }
    Ok(())
}

/// What the least runs end with. Of a shortest one the last arc lowers its weight.
fn end(runs: &Runs, arcs: &[Weighted], weights: &[i128]) -> &'static str {
    let lowest = least(weights);
    let ends = |&(from, to, weight): &Weighted| {
        weight < 0 && weights[to] == lowest && weights[from] + weight == lowest
    };
    let some = |delay| arcs.iter().zip(&runs.delays).any(|(arc, at)| *at == delay && ends(arc));
    match (some(true), some(false)) {
        (true, false) => "with a delay",
        (false, true) => "with an edge",
        (true, true) => "some with a delay, some with an edge",
        (false, false) => unreachable!("a least run below 0 has a last arc"),
    }
}

/// Whether a loop of weight 0 passes a state where a least run ends. Such are exactly the loops of
/// arcs that lead from least weight to least weight.
fn comes_round(arcs: &[Weighted], weights: &[i128]) -> bool {
    let tight = arcs.iter().filter(|&&(from, to, weight)| weights[from] + weight == weights[to]);
    let ends: Vec<(usize, usize)> = tight.map(|&(from, to, _)| (from, to)).collect();
    let component = components(weights.len(), &ends);
    let lowest = least(weights);
    ends.iter().any(|&(from, to)| weights[from] == lowest && component[from] == component[to])
}

/// Of a sheet whose smallest potential is met by these runs.
fn count_ends(tally: &mut Tally, runs: &Runs, weights: &[i128], answered: &Answered) {
    let arcs = weighted(&runs.members, answered.numbers.p.into(), answered.numbers.q.into());
    tally.count(format!("least runs end: {}", end(runs, &arcs, weights)));
    let round = if comes_round(&arcs, weights) { "some" } else { "none" };
    tally.count(format!("least runs end: {round} on a loop of weight 0"));
}

/// Of a sheet whose smallest potential is below 0.
fn count_below(tally: &mut Tally, group: &str, answered: &Answered, lowest: &[i128]) {
    let kinds = [("p below 0", answered.numbers.p < 0), ("q above 1", answered.numbers.q > 1)];
    for (kind, _) in kinds.iter().filter(|(_, holds)| *holds) {
        tally.count(format!("{group}: {kind}"));
    }
    let finer = (1..).zip(lowest).find(|(n, weight)| **weight < n * lowest[0]);
    if let Some((n, _)) = finer {
        tally.count(format!("{group}: runs in whole units are undercut first with n = {n}"));
    }
}

/// Judges the least weights of the runs to each state, for each n, by the smallest potential.
pub fn judge_undercut(
    sheet: &Sheet,
    all: &[Runs],
    weights: &[Vec<i128>],
    answered: &Answered,
    tally: &mut Tally,
) -> Verdict<()> {
    let potential = answered.potentials.iter().min().ok_or("an accepted plan has no potential")?;
    let potential = i128::from(*potential);
    let closed = all_closed(sheet);
    let lowest: Vec<i128> = weights.iter().map(|of_states| least(of_states)).collect();
    for (n, &weight) in (1..).zip(&lowest) {
        judge_least(n, weight, potential, closed)?;
    }
    let bounds = if closed { "all closed" } else { "some strict" };
    if potential == 0 {
        tally.count(format!("smallest potential 0: {bounds}"));
        return Ok(());
    }
    let group = format!("smallest potential below 0, {bounds}");
    count_below(tally, &group, answered, &lowest);
    match (1..).zip(&lowest).position(|(n, &weight)| weight == n * potential) {
        None => tally.count(format!("{group}: not met with n up to {}", all.len())),
        Some(at) => {
            tally.count(format!("{group}: met with n = {}", at + 1));
            count_ends(tally, &all[at], &weights[at], answered);
        }
    }
    Ok(())
}
