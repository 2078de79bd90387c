//! The kinds of work plans that the random sheets promise to cover.

use crate::coverage::strict::count_18;
use crate::coverage::tally::Tally;
use crate::judges::plan::Answer;
use crate::judges::work::{JudgedWork, WorkPlan};
use crate::reading::expected::Expected;
use crate::reading::region::UNIT;
use crate::reading::sheet::Sheet;
use crate::reading::strict::all_closed;

/// The units before the first edge of some codes.
fn units_to_edge<'a>(codes: impl Iterator<Item = &'a u16>) -> usize {
    codes.take_while(|&&code| code >= UNIT).filter(|&&code| code == UNIT).count()
}

fn count_lasso(tally: &mut Tally, answer: &Answer) {
    let Answer { stem, cycle, .. } = answer;
    let (first, last) = (units_to_edge(cycle.iter()), units_to_edge(cycle.iter().rev()));
    let kinds = [
        ("no stem", stem.is_empty()),
        ("a stem with no edge", !stem.is_empty() && stem.iter().all(|&code| code >= UNIT)),
        ("a stem that ends with an edge", stem.last().is_some_and(|&code| code < UNIT)),
        ("a stem that ends with a wait", units_to_edge(stem.iter().rev()) > 0),
        ("a cycle that begins with an edge", cycle[0] < UNIT),
        ("a cycle that begins with a wait", first > 0),
        ("a cycle that ends with an edge", cycle[cycle.len() - 1] < UNIT),
        ("a cycle that ends with a wait", last > 0),
        ("a cycle that begins with an edge and ends with a wait", cycle[0] < UNIT && last > 0),
        ("a cycle that begins and ends with a wait", first > 0 && last > 0),
    ];
    for (kind, _) in kinds.iter().filter(|(_, holds)| *holds) {
        tally.count(format!("work plan of a lasso with: {kind}"));
    }
}

fn count_pairs(tally: &mut Tally, sheet: &Sheet, plan: &WorkPlan) {
    let WorkPlan { stem, cycle } = plan;
    let both = || stem.iter().chain(cycle);
    let longest = both().map(|pair| pair.0).max().unwrap_or(0);
    let kinds = [
        ("1 clock", sheet.clocks == 1),
        ("2 clocks", sheet.clocks == 2),
        ("3 clocks", sheet.clocks == 3),
        ("4 clocks", sheet.clocks == 4),
        ("no time in the cycle", cycle.iter().all(|pair| pair.0 == 0)),
        ("time in the cycle", cycle.iter().any(|pair| pair.0 > 0)),
        ("a wait of 9 units and more", longest >= 9),
        ("a wait of 12 units", longest == 12),
        ("a stem of one pair", stem.len() == 1),
        ("a stem of 5 pairs and more", stem.len() >= 5),
        ("a stem of 256 pairs and more", stem.len() >= 256),
        ("a cycle of one pair", cycle.len() == 1),
        ("a cycle of 5 pairs and more", cycle.len() >= 5),
        ("a cycle of 12 pairs and more", cycle.len() >= 12),
        ("a cycle of 256 pairs and more", cycle.len() >= 256),
        ("a cycle of 1,000 pairs and more", cycle.len() >= 1000),
        ("an edge from 16 on", both().any(|pair| pair.1 >= 16)),
        ("edge 31", both().any(|pair| pair.1 == 31)),
    ];
    for (kind, _) in kinds.iter().filter(|(_, holds)| *holds) {
        tally.count(format!("work plan with: {kind}"));
    }
}

pub fn count_work(
    tally: &mut Tally,
    expected: &Expected,
    answer: Option<&Answer>,
    judged: &JudgedWork,
) {
    tally.count("work plan answers:  1");
    tally.count(format!("work plan answers: {:>2}", judged.refusal));
    let (sheet, graph) = match (&expected.sheet, &expected.graph) {
        (Some(sheet), Some(graph)) => (sheet, graph),
        _ => return,
    };
    if judged.longer {
        tally.count(format!("longer buffers, work plan answers: {:>2}", judged.refusal));
    }
    let strictness = if all_closed(sheet) { "nothing" } else { "something" };
    tally.count(format!("{strictness} strict, work plan answers: {:>2}", judged.refusal));
    if let (Some(answer), Some(plan)) = (answer, &judged.plan) {
        count_lasso(tally, answer);
        count_pairs(tally, sheet, plan);
    }
    if judged.refusal == 18 {
        count_18(tally, sheet, graph);
    }
}

/// Each kind and the least number of its cases, but for the refusals from 2 on by themselves.
const PROMISED: [(&str, u64); 42] = [
    ("work plan answers:  1", 20_000),
    ("nothing strict, work plan answers:  0", 1000),
    ("nothing strict, work plan answers: 12", 50),
    ("nothing strict, work plan answers: 13", 200),
    ("nothing strict, work plan answers: 14", 50),
    ("something strict, work plan answers: 12", 300),
    ("something strict, work plan answers: 13", 1000),
    ("something strict, work plan answers: 14", 100),
    ("something strict, work plan answers: 18", 3000),
    ("longer buffers, work plan answers:  0", 500),
    ("longer buffers, work plan answers: 12", 50),
    ("longer buffers, work plan answers: 13", 50),
    ("longer buffers, work plan answers: 14", 50),
    ("longer buffers, work plan answers: 18", 1000),
    ("work plan of a lasso with: no stem", 300),
    ("work plan of a lasso with: a stem with no edge", 60),
    ("work plan of a lasso with: a stem that ends with an edge", 300),
    ("work plan of a lasso with: a stem that ends with a wait", 100),
    ("work plan of a lasso with: a cycle that begins with an edge", 300),
    ("work plan of a lasso with: a cycle that begins with a wait", 300),
    ("work plan of a lasso with: a cycle that ends with an edge", 500),
    ("work plan of a lasso with: a cycle that ends with a wait", 80),
    ("work plan of a lasso with: a cycle that begins with an edge and ends with a wait", 8),
    ("work plan of a lasso with: a cycle that begins and ends with a wait", 60),
    ("work plan with: 1 clock", 300),
    ("work plan with: 2 clocks", 300),
    ("work plan with: 3 clocks", 300),
    ("work plan with: 4 clocks", 300),
    ("work plan with: no time in the cycle", 500),
    ("work plan with: time in the cycle", 300),
    ("work plan with: a wait of 9 units and more", 150),
    ("work plan with: a wait of 12 units", 100),
    ("work plan with: a stem of one pair", 300),
    ("work plan with: a stem of 5 pairs and more", 60),
    ("work plan with: a stem of 256 pairs and more", 20),
    ("work plan with: a cycle of one pair", 300),
    ("work plan with: a cycle of 5 pairs and more", 100),
    ("work plan with: a cycle of 12 pairs and more", 40),
    ("work plan with: a cycle of 256 pairs and more", 20),
    ("work plan with: a cycle of 1,000 pairs and more", 3),
    ("work plan with: an edge from 16 on", 80),
    ("work plan with: edge 31", 4),
];

/// Each kind and the least number of its cases.
pub fn promised() -> Vec<(String, u64)> {
    let promised = PROMISED.map(|(kind, least)| (kind.to_string(), least));
    let answers =
        (2..=14).chain([17]).map(|answer| (format!("work plan answers: {answer:>2}"), 80));
    promised.into_iter().chain(answers).collect()
}
