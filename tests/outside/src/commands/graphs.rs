//! Writes the graphs of accepted sheets, with the library's ratio, for the solvers to judge.

use crate::commands::arguments::Arguments;
use crate::commands::cases::rows;
use crate::coverage::plans::SHEETS;
use crate::hexadecimal;
use crate::judges::verdict::Verdict;
use crate::library::answers::{Answered, Planner};
use crate::reading::expected::expect;
use crate::sheets::kinds::generate;
use std::io::Write;

fn ratio(planner: &Planner, bytes: &[u8]) -> Option<(i64, i64)> {
    let Answered { refusal, numbers, .. } = planner.answer(bytes);
    (refusal == 0).then_some((numbers.p, numbers.q))
}

/// One line `graph NAME SHEET P Q NODES ARCS`, then a line for each arc.
fn write_graph(out: &mut impl Write, name: &str, bytes: &[u8], (p, q): (i64, i64)) -> Verdict<()> {
    let graph = expect(bytes).graph.ok_or_else(|| format!("{name}: accepted, but no sheet"))?;
    let (nodes, arcs) = (graph.numbers.len(), graph.arcs.len());
    let sheet = hexadecimal::write(bytes);
    let mut text = format!("graph {name} {sheet} {p} {q} {nodes} {arcs}\n");
    for arc in &graph.arcs {
        text.push_str(&format!("{} {} {} {}\n", arc.from, arc.to, arc.cost, arc.reward));
    }
    out.write_all(text.as_bytes()).map_err(|error| format!("the solvers stopped reading: {error}"))
}

pub fn run(arguments: &Arguments) -> Verdict<()> {
    let planner = Planner { fault: arguments.fault };
    let out = &mut std::io::BufWriter::new(std::io::stdout().lock());
    if let Some(folder) = arguments.words.first() {
        for (place, row) in rows(folder, "plan.tsv", 6)?.iter().enumerate() {
            if let Some(ratio) = ratio(&planner, &row.sheet) {
                write_graph(out, &format!("plan.tsv:{}", place + 2), &row.sheet, ratio)?;
            }
        }
    }
    let count = arguments.count.unwrap_or(SHEETS);
    for seed in arguments.seed..arguments.seed + count {
        let (_, bytes) = generate(seed);
        if let Some(ratio) = ratio(&planner, &bytes) {
            write_graph(out, &format!("seed:{seed}"), &bytes, ratio)?;
        }
    }
    out.flush().map_err(|error| format!("the solvers stopped reading: {error}"))
}
