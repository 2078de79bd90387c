//! What the lassos of accepted sheets take, cost and earn, as the random sheets promise to cover it.

use crate::coverage::tally::Tally;
use crate::judges::plan::Answer;
use crate::reading::region::MOVE;

/// Each kind and the least number of its cases.
pub const PROMISED: [(&str, u64); 12] = [
    ("lasso with: a stem that takes units", 500),
    ("lasso with: a stem that costs or gains", 1000),
    ("lasso with: a stem that earns", 1000),
    ("lasso with: a cycle that takes no unit", 1000),
    ("lasso with: a cycle that takes no unit, and has a move", 500),
    ("lasso with: a cycle that takes 1 unit", 200),
    ("lasso with: a cycle that takes several units", 500),
    ("lasso with: a cycle that takes 100 units and more", 100),
    ("lasso with: a cycle that takes 256 units and more", 15),
    ("lasso with: a cycle whose cost is not p", 500),
    ("lasso with: a cycle whose cost is not p, and is below 0", 500),
    ("lasso with: a cycle whose reward is not q", 500),
];

pub fn count_sums(tally: &mut Tally, answer: &Answer) {
    let Answer { p, q, stem_sums: stem, cycle_sums: cycle, .. } = answer;
    let other_cost = cycle.cost != i128::from(*p);
    let kinds = [
        ("a stem that takes units", stem.units > 0),
        ("a stem that costs or gains", stem.cost != 0),
        ("a stem that earns", stem.reward > 0),
        ("a cycle that takes no unit", cycle.units == 0),
        (
            "a cycle that takes no unit, and has a move",
            cycle.units == 0 && answer.cycle.contains(&MOVE),
        ),
        ("a cycle that takes 1 unit", cycle.units == 1),
        ("a cycle that takes several units", cycle.units > 1),
        ("a cycle that takes 100 units and more", cycle.units >= 100),
        ("a cycle that takes 256 units and more", cycle.units >= 256),
        ("a cycle whose cost is not p", other_cost),
        ("a cycle whose cost is not p, and is below 0", other_cost && cycle.cost < 0),
        ("a cycle whose reward is not q", cycle.reward != i128::from(*q)),
    ];
    for (kind, _) in kinds.iter().filter(|(_, holds)| *holds) {
        tally.count(format!("lasso with: {kind}"));
    }
}
