//! The frozen cases: the library and the implementation here against the answers on file.

use crate::commands::arguments::Arguments;
use crate::hexadecimal;
use crate::judges::plan::{judge_plan, Answer};
use crate::judges::step::{expected_step, StepAnswer};
use crate::judges::verdict::{same, Verdict};
use crate::judges::work::judge_work;
use crate::library::answers::Planner;
use crate::library::marked::step_numbers;
use crate::random::Random;
use crate::reading::expected::expect;
use crate::reading::sheet::read;
use crate::sha256::digest;
use planner::calls::StepNumbers;

pub struct Row {
    pub sheet: Vec<u8>,
    pub columns: Vec<String>,
    pub place: String,
}

impl Row {
    pub fn number<T: std::str::FromStr>(&self, column: usize) -> Verdict<T> {
        let text = &self.columns[column];
        text.parse().map_err(|_| format!("{}: column {column} is no number: {text}", self.place))
    }
}

/// The rows of a file; each has the given number of columns, the sheet first.
pub fn rows(folder: &str, file: &str, columns: usize) -> Verdict<Vec<Row>> {
    let path = format!("{folder}/{file}");
    let text = std::fs::read_to_string(&path).map_err(|error| format!("{path}: {error}"))?;
    let mut rows = Vec::new();
    for (line, text) in text.lines().enumerate().filter(|(_, text)| !text.starts_with('#')) {
        let place = format!("{path}, line {}", line + 1);
        let cells: Vec<String> = text.split('\t').map(str::to_string).collect();
        if cells.len() != columns {
            return Err(format!("{place}: {} columns, expected {columns}", cells.len()));
        }
        let sheet = hexadecimal::read(&cells[0]).map_err(|error| format!("{place}: {error}"))?;
        rows.push(Row { sheet, columns: cells, place });
    }
    if rows.is_empty() {
        return Err(format!("{path}: no row"));
    }
    Ok(rows)
}

fn judge_check(planner: &Planner, row: &Row) -> Verdict<()> {
    let frozen: u8 = row.number(1)?;
    same("check: here and on file", read(&row.sheet).err().unwrap_or(0), frozen)?;
    same("check", planner.check(&row.sheet), frozen)
}

fn judge_step(planner: &Planner, row: &Row, random: &mut Random) -> Verdict<()> {
    let (node, code) = (row.number(1)?, row.number(2)?);
    let numbers = StepNumbers {
        number: row.number(4)?,
        cost: row.number(5)?,
        reward: row.number(6)?,
        units: row.number(7)?,
    };
    let frozen: StepAnswer = (row.number(3)?, numbers);
    let read = read(&row.sheet);
    let here = expected_step(read.as_ref().map_err(|refusal| *refusal), node, code);
    same("step: here and on file", here, frozen)?;
    let mut numbers = step_numbers(random);
    let refusal = planner.step(&row.sheet, node, code, &mut numbers);
    same("step", (refusal, numbers), frozen)
}

/// Of the node numbers and then the potentials, as bytes.
fn digest_of(answer: &Answer) -> String {
    let nodes = answer.nodes.iter().flat_map(|number| number.to_le_bytes());
    let potentials = answer.potentials.iter().flat_map(|weight| weight.to_le_bytes());
    digest(&nodes.chain(potentials).collect::<Vec<u8>>())
}

fn judge_plan_row(planner: &Planner, row: &Row, random: &mut Random) -> Verdict<()> {
    let expected = expect(&row.sheet);
    let judged = judge_plan(planner, &row.sheet, &expected, random)?;
    let (output, sum) = match judged.answer {
        None => (format!("refused {}", expected.refusal), "-".to_string()),
        Some(answer) => {
            let graph = expected.graph.expect("an accepted sheet has a graph");
            same("arcs: here and on file", graph.arcs.len(), row.number(4)?)?;
            let nodes = graph.numbers.len();
            (format!("ratio {} {}|nodes {nodes}", answer.p, answer.q), digest_of(&answer))
        }
    };
    same("answer", &output, &row.columns[1])?;
    same("sha256 of nodes and potentials", &sum, &row.columns[2])
}

/// The pairs are not on file: they are replayed.
fn judge_work_row(planner: &Planner, row: &Row, random: &mut Random) -> Verdict<()> {
    let expected = expect(&row.sheet);
    same("work plan: here and on file", expected.work_refusal(), row.number(1)?)?;
    let judged = judge_plan(planner, &row.sheet, &expected, random)?;
    let answer = judged.answer.as_ref();
    let worked = judge_work(planner, &row.sheet, &expected, answer, random)?;
    let accepted = answer.filter(|_| worked.plan.is_some());
    let ratio = accepted.map_or((0, 0), |answer| (answer.p, answer.q));
    same("ratio of a work plan", ratio, (row.number(2)?, row.number(3)?))
}

fn named(row: &Row) -> impl Fn(String) -> String + '_ {
    |message| format!("{}: {message}\nsheet {}", row.place, hexadecimal::write(&row.sheet))
}

pub fn run(arguments: &Arguments) -> Verdict<()> {
    let folder = arguments.words.first().ok_or("cases needs the folder of the frozen cases")?;
    let planner = Planner { fault: arguments.fault };
    let random = &mut Random::new(arguments.seed);
    let checks = rows(folder, "check.tsv", 3)?;
    for row in &checks {
        judge_check(&planner, row).map_err(named(row))?;
    }
    let steps = rows(folder, "step.tsv", 8)?;
    for row in &steps {
        judge_step(&planner, row, random).map_err(named(row))?;
    }
    let plans = rows(folder, "plan.tsv", 6)?;
    for row in &plans {
        judge_plan_row(&planner, row, random).map_err(named(row))?;
    }
    let work_plans = rows(folder, "work.tsv", 5)?;
    for row in &work_plans {
        judge_work_row(&planner, row, random).map_err(named(row))?;
    }
    println!("frozen cases that agree");
    println!("  {:>9}  checks\n  {:>9}  steps", checks.len(), steps.len());
    println!("  {:>9}  plans\n  {:>9}  work plans", plans.len(), work_plans.len());
    Ok(())
}
