//! Edition 2: a sheet of four clocks, with node numbers above 2^32, by every function.

use planner::{check, step, Planner, Step, WorkPlanner, MOVE, UNIT};

/// Three locations in a ring, with cost rates 1, 2 and 3 and all four clocks ≤ 1. Edge 0 asks clock 3
/// for 1 and resets all clocks, edge 1 has no field, edge 2 earns 2.
const RING: [u8; 42] = [
    2, 3, 4, 3, 61, 1, 0, 3, 3, 3, 3, 61, 2, 0, 3, 3, 3, 3, 61, 3, 0, 3, 3, 3, 3, 68, 4, 0, 1, 15,
    2, 3, 0, 0, 1, 2, 2, 0, 2, 0, 2, 0,
];

/// The locations in a node's number.
const SECOND: u64 = 1 << 31;
const THIRD: u64 = 2 << 31;

/// All clocks between 0 and 1 with the same fraction, corner 1; and all clocks at 1.
const INSIDE: u64 = 1 | 1 << 3 | 1 << 10 | 1 << 17 | 1 << 24;
const END: u64 = 1 << 6 | 1 << 13 | 1 << 20 | 1 << 27;

fn free(node: u64) -> Step {
    Step { node, cost: 0, reward: 0, units: 0 }
}

#[test]
fn a_step_takes_and_answers_numbers_above_2_to_the_32() {
    assert_eq!(step(&RING, SECOND, 1), Ok(free(THIRD)));
    assert_eq!(step(&RING, THIRD, MOVE), Ok(free(THIRD + INSIDE)));
    let unit = Step { node: THIRD + INSIDE - 1, cost: 3, reward: 0, units: 1 };
    assert_eq!(step(&RING, THIRD + INSIDE, UNIT), Ok(unit));
    assert_eq!(step(&RING, THIRD + INSIDE - 1, MOVE), Ok(free(THIRD + END)));
    assert_eq!(step(&RING, THIRD, 2), Ok(Step { reward: 2, ..free(0) }));
}

#[test]
fn bits_that_the_layout_does_not_name_are_clear() {
    for bit in 35..64 {
        let refusal = step(&RING, THIRD | 1 << bit, MOVE).expect_err("no node");
        assert_eq!(refusal.number(), 15, "bit {bit}");
    }
}

#[test]
fn a_plan_lists_numbers_above_2_to_the_32() {
    let mut planner = Planner::new();
    let plan = planner.plan(&RING).expect("the ring earns");
    assert_eq!((plan.p, plan.q), (1, 2));
    let places = [0, INSIDE - 1, INSIDE, END];
    let nodes = [0, SECOND, THIRD].map(|location| places.map(|place| location + place));
    assert_eq!(plan.nodes, nodes.concat());
    assert_eq!((plan.units, plan.cost, plan.reward), (1, 1, 2));
}

#[test]
fn a_work_plan_waits_for_the_fourth_clock() {
    let mut planner = WorkPlanner::new();
    let plan = planner.plan(&RING).expect("nothing is strict");
    assert_eq!(plan.stem.iter().collect::<Vec<_>>(), [(1, 0)]);
    assert_eq!(plan.cycle.iter().collect::<Vec<_>>(), [(0, 1), (0, 2), (1, 0)]);
    let mut strict = RING;
    strict[31] = 2;
    assert_eq!(planner.plan(&strict).expect_err("clock 3 < 1").number(), 13);
    strict[30..32].copy_from_slice(&[1, 3]);
    assert_eq!(planner.plan(&strict).expect_err("clock 3 > 0").number(), 18);
}

#[test]
fn edition_1_has_three_clocks_and_there_is_no_edition_3() {
    let refused = |edition| {
        let mut sheet = RING;
        sheet[0] = edition;
        check(&sheet).expect_err("another edition").to_string()
    };
    assert_eq!(refused(1), "refused 4: Are the counts of locations, clocks and edges in range?");
    assert_eq!(refused(3), "refused 3: Is the edition 1 or 2?");
    assert_eq!(check(&RING), Ok(()));
}

#[test]
fn a_sheet_has_656_bytes_at_most() {
    let mut long = RING.to_vec();
    long.resize(656, 0);
    assert_eq!(check(&long).expect_err("bytes are left over").number(), 10);
    long.push(0);
    let refusal = check(&long).expect_err("a byte more");
    assert_eq!(refusal.to_string(), "refused 2: Is the length 4 to 656?");
}
