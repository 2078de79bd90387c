//! Faults planted in what the library answered to a plan.

use crate::graphs::questions::{idle_cycles, Idle};
use crate::graphs::weights::{least_weights, weighted};
use crate::judges::plan::divisor;
use crate::library::marked::Buffers;
use crate::planted::fault::Fault;
use crate::planted::idle_lasso::idle_lasso;
use crate::planted::twice::Twice;
use crate::reading::expected::expect;
use crate::reading::explore::{Graph, MOST_NODES};
use planner::calls::PlanNumbers;

fn graph_of(sheet: &[u8]) -> Graph {
    expect(sheet).graph.expect("a sheet that passes the check has a graph")
}

fn idle_of(sheet: &[u8]) -> Idle {
    let graph = graph_of(sheet);
    idle_cycles(graph.numbers.len(), &graph.arcs)
}

fn raise_ratio(numbers: &mut PlanNumbers, by: i64) {
    let (p, q) = (numbers.p + by, numbers.q);
    let common = divisor(p, q);
    (numbers.p, numbers.q) = (p / common, q / common);
}

fn lower_ratio(sheet: &[u8], buffers: &mut Buffers, numbers: &mut PlanNumbers) {
    raise_ratio(numbers, -1);
    let graph = graph_of(sheet);
    let weights = weighted(&graph.arcs, numbers.p.into(), numbers.q.into());
    let least = least_weights(graph.numbers.len(), &weights);
    let least = least.expect("no cycle is below a lower ratio");
    for (number, weight) in graph.numbers.iter().zip(least) {
        let at = buffers.nodes[..graph.numbers.len()].binary_search(number).expect("a listed node");
        buffers.potentials[at] = weight as i64;
    }
}

fn swap_steps(steps: &mut [u16]) {
    match (1..steps.len()).find(|&at| steps[at] != steps[at - 1]) {
        Some(at) => steps.swap(at - 1, at),
        None => steps[0] = 33 - steps[0].min(33),
    }
}

fn refuse(refusal: u8, buffers: &mut Buffers, numbers: &mut PlanNumbers) -> u8 {
    buffers.nodes.fill(0);
    buffers.potentials.fill(0);
    buffers.steps.fill(0);
    *numbers = PlanNumbers::default();
    refusal
}

/// A ratio that no cycle that earns is below; the buffers stay as they are.
fn accept(numbers: &mut PlanNumbers) -> u8 {
    *numbers = PlanNumbers { p: -20_480_000, q: 1, n: 1, m: 1, ..PlanNumbers::default() };
    0
}

fn lay_idle_lasso(sheet: &[u8], buffers: &mut Buffers, numbers: &mut PlanNumbers) {
    if let Some((stem, cycle)) = idle_lasso(&graph_of(sheet)) {
        (numbers.s, numbers.m) = (stem.len() as i64, cycle.len() as i64);
        let codes = stem.into_iter().chain(cycle).chain(std::iter::repeat(0));
        buffers.steps.iter_mut().zip(codes).for_each(|(entry, code)| *entry = code);
    }
}

/// A fault in the plan of an accepted sheet.
pub fn accepted(
    fault: Fault,
    sheet: &[u8],
    buffers: &mut Buffers,
    numbers: &mut PlanNumbers,
) -> u8 {
    let n = numbers.n as usize;
    match fault {
        Fault::High => raise_ratio(numbers, 1),
        Fault::Low => lower_ratio(sheet, buffers, numbers),
        Fault::Terms => (numbers.p, numbers.q) = (2 * numbers.p, 2 * numbers.q),
        Fault::Potential => buffers.potentials[n - 1] += 1,
        Fault::Smallest(fault) => fault.plant(sheet, buffers, numbers),
        Fault::Edition(fault) => return fault.plan(sheet, buffers, numbers),
        Fault::Layout(fault) => fault.listed(sheet, buffers, numbers),
        Fault::Node if n < buffers.nodes.len() => {
            buffers.nodes[n] = buffers.nodes[n - 1] + 1;
            numbers.n += 1;
        }
        Fault::Missing => {
            (buffers.nodes[n - 1], buffers.potentials[n - 1]) = (0, 0);
            numbers.n -= 1;
        }
        Fault::Entry => buffers.nodes[n - 1] += 1,
        Fault::Lasso => swap_steps(&mut buffers.steps[..(numbers.s + numbers.m) as usize]),
        Fault::Rest => *buffers.steps.last_mut().expect("a long buffer") = 1,
        Fault::Border if n == MOST_NODES => return refuse(12, buffers, numbers),
        Fault::NoneEarns => return refuse(13, buffers, numbers),
        Fault::IdleCosts if idle_of(sheet) == Idle::AllCost => return refuse(14, buffers, numbers),
        Fault::IdleFree if idle_of(sheet) == Idle::AllFree => return refuse(14, buffers, numbers),
        Fault::IdleLasso => lay_idle_lasso(sheet, buffers, numbers),
        Fault::LowFree if [Idle::AllFree, Idle::CostOrFree].contains(&idle_of(sheet)) => {
            lower_ratio(sheet, buffers, numbers)
        }
        _ => {}
    }
    0
}

/// What a fault in questions 13 and 14 has a refused plan answer.
fn questioned(fault: Fault, refusal: u8, sheet: &[u8], numbers: &mut PlanNumbers) -> Option<u8> {
    match (fault, refusal) {
        (Fault::Refusal | Fault::Exchanged, 14) => Some(13),
        (Fault::Exchanged, 13) => Some(14),
        (Fault::Gain, 14) => Some(accept(numbers)),
        (Fault::Order, 13) => idle_of(sheet).gains().then_some(14),
        (Fault::OnlyIdle, 13) => {
            let idle = idle_of(sheet);
            (idle != Idle::NoneThere && !idle.gains()).then(|| accept(numbers))
        }
        _ => None,
    }
}

/// A fault in a refused plan.
pub fn refused(
    fault: Fault,
    refusal: u8,
    sheet: &[u8],
    buffers: &mut Buffers,
    numbers: &mut PlanNumbers,
) -> u8 {
    if let Some(answer) = questioned(fault, refusal, sheet, numbers) {
        return answer;
    }
    match (fault, refusal) {
        (Fault::Write, 2..=11) => *buffers.potentials.last_mut().expect("a long buffer") = 0,
        (Fault::Leave, 12..=14) => *buffers.potentials.last_mut().expect("a long buffer") = 7,
        (Fault::Short, 1) => return 2,
        (Fault::Twice(Twice::Plan), 17) => return accept(numbers),
        (Fault::Twice(Twice::Clear), 17) => return refuse(17, buffers, numbers),
        _ => {}
    }
    refusal
}
