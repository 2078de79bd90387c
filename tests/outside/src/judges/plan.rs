//! A plan of the library against the answer expected here.

use crate::graphs::weights::{least_weights, weighted};
use crate::judges::lasso::{judge_lasso, Sums};
use crate::judges::verdict::{all_zero, same, untouched, Verdict};
use crate::library::answers::Planner;
use crate::library::marked::{self, Buffers};
use crate::random::Random;
use crate::reading::expected::Expected;
use crate::reading::explore::{Graph, MOST_NODES};
use planner::calls::PlanNumbers;

/// What an accepted plan answered, once it is judged.
pub struct Answer {
    pub p: i64,
    pub q: i64,
    pub lowest_potential: i64,
    /// The step codes of the lasso.
    pub stem: Vec<u16>,
    pub cycle: Vec<u16>,
    pub stem_sums: Sums,
    pub cycle_sums: Sums,
    pub nodes: Vec<u64>,
    pub potentials: Vec<i64>,
}

/// A plan that is judged; an answer where it was accepted.
pub struct Judged {
    /// The buffers were longer than they have to be.
    pub longer: bool,
    pub answer: Option<Answer>,
}

/// A short buffer gets 1, whatever the sheet; no buffer is written to, and the numbers are 0.
fn judge_short(planner: &Planner, bytes: &[u8], random: &mut Random) -> Verdict<()> {
    let mut lengths = [MOST_NODES; 3].map(|least| least + random.below(2) * random.below(100));
    lengths[random.below(3)] = marked::short_length(random, MOST_NODES);
    let mut buffers = marked::buffers(random, lengths);
    let before = buffers.clone();
    let mut numbers = marked::plan_numbers(random);
    same("short buffer", planner.plan(bytes, &mut buffers, &mut numbers), 1)?;
    same("short buffer: the numbers", numbers, PlanNumbers::default())?;
    untouched("short buffer", &buffers, &before)
}

pub fn divisor(a: i64, b: i64) -> i64 {
    if b == 0 {
        a.abs()
    } else {
        divisor(b, a % b)
    }
}

fn judge_ratio(p: i64, q: i64) -> Verdict<()> {
    if q < 1 || divisor(p, q) != 1 {
        return Err(format!("ratio: {p}/{q} is not in lowest terms"));
    }
    Ok(())
}

fn judge_nodes(graph: &Graph, buffers: &Buffers, n: i64) -> Verdict<usize> {
    let count = graph.numbers.len();
    same("node count", n, count as i64)?;
    let mut numbers = graph.numbers.clone();
    numbers.sort_unstable();
    for (at, number) in numbers.iter().enumerate() {
        same(&format!("node list, entry {at}"), buffers.nodes[at], *number)?;
    }
    all_zero("rest of the nodes", &buffers.nodes[count..])?;
    all_zero("rest of the potentials", &buffers.potentials[count..])?;
    Ok(count)
}

fn judge_potentials(graph: &Graph, buffers: &Buffers, p: i64, q: i64) -> Verdict<()> {
    let count = graph.numbers.len();
    let least = least_weights(count, &weighted(&graph.arcs, p.into(), q.into()))
        .ok_or_else(|| format!("ratio: a reachable cycle is below {p}/{q}"))?;
    for (number, weight) in graph.numbers.iter().zip(least) {
        let at = buffers.nodes[..count].binary_search(number).expect("the list was compared");
        let what = format!("potential of node {number}");
        same(&what, i128::from(buffers.potentials[at]), weight)?;
        if weight.abs() >= 1_000_000_000_000_000 {
            return Err(format!("{what}: {weight} is not within 10^15"));
        }
    }
    Ok(())
}

fn judge_accepted(
    planner: &Planner,
    bytes: &[u8],
    expected: &Expected,
    buffers: &Buffers,
    numbers: &PlanNumbers,
) -> Verdict<Answer> {
    let PlanNumbers { p, q, n, s, m, .. } = *numbers;
    let graph = expected.graph.as_ref().expect("an accepted sheet has a graph");
    judge_ratio(p, q)?;
    let count = judge_nodes(graph, buffers, n)?;
    judge_potentials(graph, buffers, p, q)?;
    let sheet = expected.sheet.as_ref().expect("an accepted sheet is read");
    let (stem_sums, cycle_sums) = judge_lasso(planner, bytes, sheet, buffers, numbers)?;
    let potentials = buffers.potentials[..count].to_vec();
    let (stem, length) = (s as usize, (s + m) as usize);
    Ok(Answer {
        p,
        q,
        stem: buffers.steps[..stem].to_vec(),
        cycle: buffers.steps[stem..length].to_vec(),
        stem_sums,
        cycle_sums,
        lowest_potential: potentials.iter().copied().min().expect("the start has a potential"),
        nodes: buffers.nodes[..count].to_vec(),
        potentials,
    })
}

/// Judges every part of the plan of a sheet.
pub fn judge_plan(
    planner: &Planner,
    bytes: &[u8],
    expected: &Expected,
    random: &mut Random,
) -> Verdict<Judged> {
    judge_short(planner, bytes, random)?;
    let longer = random.percent(50);
    let lengths = [0; 3].map(|_| MOST_NODES + if longer { 1 + random.below(1500) } else { 0 });
    let mut buffers = marked::buffers(random, lengths);
    let before = buffers.clone();
    let mut numbers = marked::plan_numbers(random);
    let refusal = planner.plan(bytes, &mut buffers, &mut numbers);
    same("refusal of the plan", refusal, expected.refusal)?;
    if refusal == 0 {
        let answer = judge_accepted(planner, bytes, expected, &buffers, &numbers)?;
        return Ok(Judged { longer, answer: Some(answer) });
    }
    same("numbers of a refused plan", numbers, PlanNumbers::default())?;
    if expected.sheet.is_none() {
        untouched("refused plan", &buffers, &before)?;
    } else {
        all_zero("nodes of a refused plan", &buffers.nodes)?;
        all_zero("potentials of a refused plan", &buffers.potentials)?;
        all_zero("steps of a refused plan", &buffers.steps)?;
    }
    Ok(Judged { longer, answer: None })
}
