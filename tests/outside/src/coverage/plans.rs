//! The kinds of cases that the random sheets promise to cover.

use crate::coverage::tally::Tally;
use crate::graphs::questions::{idle_cycles, Idle};
use crate::judges::plan::Answer;
use crate::reading::expected::Expected;
use crate::reading::explore::{Graph, MOST_NODES};
use crate::reading::region::UNIT;
use crate::reading::sheet::Sheet;
use crate::reading::strict::all_closed;

/// How many sheets are made where no number is given.
pub const SHEETS: u64 = 20_000;

/// Each kind and the least number of its cases among that number of sheets.
pub const PROMISED: [(&str, u64); 78] = [
    ("plan answers:  0", 4000),
    ("plan answers:  1", 20_000),
    ("plan answers:  2", 100),
    ("plan answers:  3", 100),
    ("plan answers:  4", 100),
    ("plan answers:  5", 100),
    ("plan answers:  6", 100),
    ("plan answers:  7", 100),
    ("plan answers:  8", 100),
    ("plan answers:  9", 100),
    ("plan answers: 10", 100),
    ("plan answers: 11", 100),
    ("plan answers: 12", 200),
    ("plan answers: 13", 2000),
    ("plan answers: 14", 400),
    ("plan answers: 17", 1000),
    ("step answers:  0", 100_000),
    ("step answers:  2", 1000),
    ("step answers:  3", 1000),
    ("step answers:  4", 1000),
    ("step answers:  5", 1000),
    ("step answers:  6", 1000),
    ("step answers:  7", 1000),
    ("step answers:  8", 1000),
    ("step answers:  9", 1000),
    ("step answers: 10", 1000),
    ("step answers: 11", 1000),
    ("step answers: 15", 100_000),
    ("step answers: 16", 100_000),
    ("step answers: 17", 100_000),
    ("step answers to codes 0 to 31:  0", 10_000),
    ("step answers to code 32:  0", 3000),
    ("step answers to code 32: 15", 3000),
    ("step answers to code 32: 16", 3000),
    ("step answers to code 32: 17", 1000),
    ("step answers to code 33:  0", 3000),
    ("damaged variants, check answers: 17", 1000),
    ("accepted: 1 clock", 500),
    ("accepted: 2 clocks", 500),
    ("accepted: 3 clocks", 500),
    ("accepted: 4 clocks", 500),
    ("accepted: all bounds and guards closed", 500),
    ("accepted: some bound or guard strict", 500),
    ("accepted: ratio below 0", 500),
    ("accepted: ratio 0", 50),
    ("accepted: ratio not whole", 500),
    ("accepted: q above 100,000", 100),
    ("accepted: ratio above 1,000,000", 50),
    ("accepted: ratio below -1,000,000", 50),
    ("accepted: a potential below 0", 500),
    ("accepted: a potential below -10^10", 50),
    ("accepted: no stem", 100),
    ("accepted: a stem", 100),
    ("accepted: time passes in the cycle", 100),
    ("accepted: 2,000 to 2,047 nodes", 50),
    ("accepted: 2,048 nodes", 50),
    ("accepted: 40,000 arcs and more", 50),
    ("accepted: idle cycles, none", 4000),
    ("accepted: idle cycles, all cost", 300),
    ("accepted: idle cycles, all free", 200),
    ("accepted: idle cycles, some cost and some are free", 150),
    ("accepted: idle cycles and 2,000 nodes and more", 100),
    ("longer buffers, plan answers:  0", 500),
    ("longer buffers, plan answers: 12", 50),
    ("longer buffers, plan answers: 13", 50),
    ("longer buffers, plan answers: 14", 50),
    ("refused 12: 2,049 nodes", 50),
    ("refused 13: idle cycles, none", 1000),
    ("refused 13: idle cycles, all cost", 200),
    ("refused 13: idle cycles, all free", 200),
    ("refused 13: idle cycles, some cost and some are free", 50),
    ("refused 13: idle cycles, some gain and none costs", 100),
    ("refused 13: idle cycles, some gain and some cost", 100),
    ("refused 13: idle cycles, and an arc earns", 300),
    ("refused 14: idle cycles, some gain and none costs", 200),
    ("refused 14: idle cycles, some gain and some cost", 100),
    ("allowed steps: from a number of 2^32 and more", 5000),
    ("allowed steps: to a number of 2^32 and more", 15_000),
];

pub fn count_accepted(tally: &mut Tally, sheet: &Sheet, graph: &Graph, answer: &Answer) {
    let nodes = graph.numbers.len();
    let plural = if sheet.clocks == 1 { "" } else { "s" };
    tally.count(format!("accepted: {} clock{plural}", sheet.clocks));
    let strictness = if all_closed(sheet) {
        "all bounds and guards closed"
    } else {
        "some bound or guard strict"
    };
    tally.count(format!("accepted: {strictness}"));
    let kinds = [
        ("ratio below 0", answer.p < 0),
        ("ratio 0", answer.p == 0),
        ("ratio not whole", answer.q > 1),
        ("q above 100,000", answer.q > 100_000),
        ("ratio above 1,000,000", answer.p > 1_000_000 * answer.q),
        ("ratio below -1,000,000", answer.p < -1_000_000 * answer.q),
        ("a potential below 0", answer.lowest_potential < 0),
        ("a potential below -10^10", answer.lowest_potential < -10_000_000_000),
        ("no stem", answer.stem.is_empty()),
        ("a stem", !answer.stem.is_empty()),
        ("time passes in the cycle", answer.cycle.contains(&UNIT)),
        ("2,048 nodes", nodes == MOST_NODES),
        ("2,000 to 2,047 nodes", (2000..MOST_NODES).contains(&nodes)),
        ("40,000 arcs and more", graph.arcs.len() >= 40_000),
    ];
    for (kind, _) in kinds.iter().filter(|(_, holds)| *holds) {
        tally.count(format!("accepted: {kind}"));
    }
    let idle = idle_cycles(nodes, &graph.arcs);
    tally.count(format!("accepted: idle cycles, {}", idle.named()));
    if idle != Idle::NoneThere && nodes >= 2000 {
        tally.count("accepted: idle cycles and 2,000 nodes and more");
    }
}

pub fn count_refused(tally: &mut Tally, expected: &Expected) {
    let graph = match &expected.graph {
        Some(graph) => graph,
        None => return,
    };
    let nodes = graph.numbers.len();
    if expected.refusal == 12 && nodes == MOST_NODES + 1 {
        tally.count("refused 12: 2,049 nodes");
    }
    if expected.refusal > 12 {
        let idle = idle_cycles(nodes, &graph.arcs);
        tally.count(format!("refused {}: idle cycles, {}", expected.refusal, idle.named()));
        let earns = graph.arcs.iter().any(|arc| arc.reward > 0);
        if expected.refusal == 13 && idle != Idle::NoneThere && earns {
            tally.count("refused 13: idle cycles, and an arc earns");
        }
    }
}
