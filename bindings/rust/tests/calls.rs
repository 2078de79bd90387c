//! Bench, the sheet of eighteen bytes, and refusals, by every function.

use planner::calls::{self, PlanNumbers, StepNumbers, WorkNumbers};
use planner::{check, step, Pairs, Planner, Step, WorkPlan, WorkPlanner};
use planner::{LEAST_ENTRIES, LEAST_PAIRS, LONGEST_SHEET, MOVE, UNIT};

/// One location, clock ≤ 2, rate 1; one edge, clock ≥ 1, reset, cost 5, reward 2.
const BENCH: [u8; 18] = [1, 1, 1, 1, 5, 1, 0, 5, 15, 0, 0, 0, 5, 0, 2, 0, 1, 2];

/// Bench without its edge: no cycle.
const NO_EDGE: [u8; 8] = [1, 1, 1, 0, 5, 1, 0, 5];

/// Bench without its reward: a cycle, and none that earns.
const NO_REWARD: [u8; 16] = [1, 1, 1, 1, 5, 1, 0, 5, 13, 0, 0, 0, 5, 0, 1, 2];

/// Bench with clock < 2, and with clock > 1.
const STRICT_BOUND: [u8; 18] = [1, 1, 1, 1, 5, 1, 0, 4, 15, 0, 0, 0, 5, 0, 2, 0, 1, 2];
const STRICT_GUARD: [u8; 18] = [1, 1, 1, 1, 5, 1, 0, 5, 15, 0, 0, 0, 5, 0, 2, 0, 1, 3];

/// Two locations in turn: edge 0 leaves the first after 1 unit, edge 1 the second after 2, and to wait
/// longer costs more.
const IN_TURN: [u8; 26] =
    [1, 2, 1, 2, 5, 1, 0, 5, 5, 2, 0, 7, 12, 0, 0, 1, 1, 2, 14, 0, 1, 0, 3, 0, 1, 4];

/// Bench with its edge entered twice.
const EDGE_TWICE: [u8; 28] =
    [1, 1, 1, 2, 5, 1, 0, 5, 15, 0, 0, 0, 5, 0, 2, 0, 1, 2, 15, 0, 0, 0, 5, 0, 2, 0, 1, 2];

#[test]
fn bench_is_planned() {
    let mut planner = Planner::new();
    let plan = planner.plan(&BENCH).expect("Bench is accepted");
    assert_eq!((plan.p, plan.q), (3, 1));
    assert_eq!((plan.nodes.len(), plan.potentials.len()), (7, 7));
    assert!(plan.nodes.windows(2).all(|pair| pair[0] < pair[1]));
    assert!(!plan.cycle.is_empty() && plan.stem.len() + plan.cycle.len() <= 7);
}

#[test]
fn the_lasso_is_walked_and_has_the_ratio() {
    let mut planner = Planner::default();
    let plan = planner.plan(&BENCH).expect("Bench is accepted");
    let walk = |from: u64, codes: &[u16]| {
        codes.iter().fold((from, 0, 0, 0), |(node, units, cost, reward), &code| {
            let next = step(&BENCH, node, code).expect("the lasso is a walk");
            (next.node, units + next.units, cost + next.cost, reward + next.reward)
        })
    };
    let (knot, ..) = walk(0, plan.stem);
    let (end, units, cost, reward) = walk(knot, plan.cycle);
    assert_eq!(end, knot);
    assert!(reward > 0);
    assert_eq!(cost * plan.q, reward * plan.p);
    assert_eq!((plan.units, plan.cost, plan.reward), (units, cost, reward));
    assert_eq!((units, cost, reward), (1, 6, 2));
    assert!(plan.cycle.contains(&UNIT));
}

#[test]
fn a_planner_goes_on_after_a_refusal() {
    let mut planner = Planner::new();
    assert_eq!(planner.plan(&NO_EDGE).expect_err("no cycle").number(), 13);
    assert_eq!(planner.plan(&[0; LONGEST_SHEET + 1]).expect_err("too long").number(), 2);
    assert_eq!(planner.plan(&BENCH).map(|plan| plan.p), Ok(3));
}

/// Bench and a second edge, which has this cost and no other field: a cycle without reward.
fn with_idle(cost: i16) -> Vec<u8> {
    let mut sheet = BENCH.to_vec();
    sheet[3] = 2;
    sheet.extend([1, 0, 0, 0]);
    sheet.extend(cost.to_le_bytes());
    sheet
}

#[test]
fn a_cycle_without_reward_may_cost_and_not_make_money() {
    let mut planner = Planner::new();
    assert_eq!(planner.plan(&with_idle(1)).map(|plan| (plan.p, plan.q)), Ok((3, 1)));
    let refusal = planner.plan(&with_idle(-1)).expect_err("it makes money");
    let question = "Does every reachable cycle without reward cost 0 or more?";
    assert_eq!(refusal.to_string(), format!("refused 14: {question}"));
    assert_eq!(planner.plan(&NO_REWARD).expect_err("no cycle earns").number(), 13);
}

#[test]
fn an_edge_may_not_be_entered_twice() {
    let mut planner = Planner::new();
    let refusal = planner.plan(&EDGE_TWICE).expect_err("an edge twice");
    assert_eq!(refusal.to_string(), "refused 17: Is each edge entered once?");
    assert_eq!(check(&EDGE_TWICE), Err(refusal));
    assert_eq!(step(&EDGE_TWICE, 0, MOVE), Err(refusal));
    let mut other_reward = EDGE_TWICE;
    other_reward[24] = 3;
    assert_eq!(planner.plan(&other_reward).map(|plan| (plan.p, plan.q)), Ok((2, 1)));
}

#[test]
fn bench_has_a_work_plan() {
    let mut planner = WorkPlanner::default();
    let plan = planner.plan(&BENCH).expect("Bench is accepted");
    let pair = Pairs { waits: &[1], edges: &[0] };
    assert_eq!(plan, WorkPlan { stem: pair, cycle: pair });
    let plan = planner.plan(&IN_TURN).expect("an edge leads back");
    assert_eq!(plan.stem.iter().collect::<Vec<_>>(), [(1, 0)]);
    assert_eq!(plan.cycle.iter().collect::<Vec<_>>(), [(2, 1), (1, 0)]);
}

#[test]
fn a_sheet_with_a_strict_bound_or_guard_has_no_work_plan() {
    let mut planner = WorkPlanner::new();
    for sheet in [STRICT_BOUND, STRICT_GUARD] {
        let refusal = planner.plan(&sheet).expect_err("something is strict");
        assert_eq!(refusal.to_string(), "refused 18: Is no bound and no guard strict?");
        assert_eq!(Planner::new().plan(&sheet).map(|plan| (plan.p, plan.q)), Ok((3, 1)));
    }
    assert_eq!(planner.plan(&NO_EDGE).expect_err("no cycle").number(), 13);
    assert_eq!(planner.plan(&with_idle(-1)).expect_err("it makes money").number(), 14);
    assert!(planner.plan(&BENCH).is_ok());
}

#[test]
fn checks_and_steps() {
    assert_eq!(check(&BENCH), Ok(()));
    assert_eq!(check(&BENCH[..17]).expect_err("a byte less").number(), 5);
    assert_eq!(step(&BENCH, 0, MOVE), Ok(Step { node: 5, cost: 0, reward: 0, units: 0 }));
    assert_eq!(step(&BENCH, 5, UNIT), Ok(Step { node: 4, cost: 1, reward: 0, units: 1 }));
    assert_eq!(step(&BENCH, 0, UNIT).expect_err("a clock has no fraction").number(), 16);
    assert_eq!(step(&BENCH, u64::MAX, MOVE).expect_err("no node").number(), 15);
    assert_eq!(step(&[], 0, MOVE).expect_err("no sheet").number(), 2);
}

#[test]
fn a_refusal_says_its_question() {
    let refusal = check(&BENCH[..17]).expect_err("a byte less");
    assert_eq!(refusal.to_string(), "refused 5: Are the bytes of each record there?");
    let error: Box<dyn std::error::Error> = refusal.into();
    assert!(error.source().is_none());
}

#[test]
fn every_number_is_written_by_a_refused_call() {
    for (sheet, refusal) in [(&BENCH[..], 16), (&EDGE_TWICE[..], 17)] {
        let mut numbers = StepNumbers { number: 7, cost: 7, reward: 7, units: 7 };
        assert_eq!(calls::step(sheet, 0, 34, &mut numbers), refusal);
        assert_eq!(numbers, StepNumbers::default());
    }
    // The entry that stands in the buffers afterwards: 7 where they are not written to.
    for (sheet, refusal, entry) in [(&BENCH[..17], 5, 7), (&EDGE_TWICE, 17, 7), (&NO_EDGE, 13, 0)] {
        let mut numbers =
            PlanNumbers { p: 7, q: 7, n: 7, s: 7, m: 7, units: 7, cost: 7, reward: 7 };
        let (mut nodes, mut potentials) = ([7; LEAST_ENTRIES], [7; LEAST_ENTRIES + 1]);
        let mut steps = [7; LEAST_ENTRIES];
        let answer = calls::plan(sheet, &mut nodes, &mut potentials, &mut steps, &mut numbers);
        assert_eq!((answer, numbers), (refusal, PlanNumbers::default()));
        assert_eq!(nodes, [u64::from(entry); LEAST_ENTRIES]);
        assert_eq!(potentials, [i64::from(entry); LEAST_ENTRIES + 1]);
        assert_eq!(steps, [entry; LEAST_ENTRIES]);
    }
    let refused: [(&[u8], u8, u16); 4] =
        [(&BENCH[..17], 5, 7), (&EDGE_TWICE, 17, 7), (&NO_EDGE, 13, 0), (&STRICT_GUARD, 18, 0)];
    for (sheet, refusal, entry) in refused {
        let mut numbers = WorkNumbers { stem: 7, cycle: 7 };
        let (mut waits, mut edges) = ([7; LEAST_PAIRS], [7; LEAST_PAIRS + 1]);
        let answer = calls::work(sheet, &mut waits, &mut edges, &mut numbers);
        assert_eq!((answer, numbers), (refusal, WorkNumbers::default()));
        assert_eq!((waits, edges), ([entry; LEAST_PAIRS], [entry; LEAST_PAIRS + 1]));
    }
}
