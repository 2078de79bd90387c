//! Thousands of random sheets through the library and through the implementation here.

use crate::commands::arguments::Arguments;
use crate::coverage;
use crate::coverage::alike::{count_alike, count_but_for_17};
use crate::coverage::editions::{count_answers, count_checked, count_fourth};
use crate::coverage::plans::{count_accepted, count_refused, PROMISED, SHEETS};
use crate::coverage::sums::count_sums;
use crate::coverage::tally::Tally;
use crate::coverage::work::count_work;
use crate::hexadecimal;
use crate::judges::check::judge_check;
use crate::judges::plan::{judge_plan, Answer};
use crate::judges::step::judge_steps;
use crate::judges::twin::{self, judge_twin};
use crate::judges::verdict::Verdict;
use crate::judges::work::judge_work;
use crate::library::answers::Planner;
use crate::random::Random;
use crate::reading::expected::{expect, refusal_but_for_17, Expected};
use crate::reading::sheet::{read_records, Sheet};
use crate::sheets::kinds::{generate, STRICT_AND_FAULT, TWICE_AND_FAULT};

/// How many in a hundred sheets of up to three clocks are judged beside their twins.
const TWINS: u64 = 50;

/// Of a sheet that passes questions 2 to 10.
fn count_read(tally: &mut Tally, sheet: &Sheet, records: &[&[u8]], expected: &Expected) {
    count_alike(tally, records);
    if expected.refusal == 17 {
        count_but_for_17(tally, refusal_but_for_17(sheet));
    }
    count_answers(tally, sheet, expected.refusal, expected.work_refusal());
}

fn count_plan(tally: &mut Tally, expected: &Expected, answer: Option<&Answer>) {
    match (expected, answer) {
        (Expected { sheet: Some(sheet), graph: Some(graph), .. }, Some(answer)) => {
            count_accepted(tally, sheet, graph, answer);
            count_fourth(tally, sheet, graph, answer);
            count_sums(tally, answer);
        }
        _ => count_refused(tally, expected),
    }
}

/// Judges the check, the plan, the work plan, single steps and often the twin of one sheet. What was
/// expected.
fn judge(planner: &Planner, bytes: &[u8], seed: u64, tally: &mut Tally) -> Verdict<Expected> {
    let random = &mut Random::new(!seed);
    let expected = expect(bytes);
    judge_check(planner, bytes, &expected, random, tally)?;
    let judged = judge_plan(planner, bytes, &expected, random)?;
    let answer = judged.answer.as_ref();
    let worked = judge_work(planner, bytes, &expected, answer, random)?;
    judge_steps(planner, bytes, &expected, random, tally)?;
    count_work(tally, &expected, answer, &worked);
    tally.count("plan answers:  1");
    tally.count(format!("plan answers: {:>2}", expected.refusal));
    if judged.longer && [0, 12, 13, 14].contains(&expected.refusal) {
        tally.count(format!("longer buffers, plan answers: {:>2}", expected.refusal));
    }
    if let Some(sheet) = &expected.sheet {
        count_checked(tally, sheet.edition, bytes.len());
    }
    count_plan(tally, &expected, answer);
    if let Ok((sheet, records)) = read_records(bytes) {
        count_read(tally, &sheet, &records, &expected);
        if random.percent(TWINS) {
            judge_twin(planner, &sheet, &expected, answer, tally)?;
        }
    }
    Ok(expected)
}

pub fn run(arguments: &Arguments) -> Verdict<()> {
    let count = arguments.count.unwrap_or(SHEETS);
    let planner = Planner { fault: arguments.fault };
    let mut tally = Tally::default();
    let mut kinds = Tally::default();
    for seed in arguments.seed..arguments.seed + count {
        let (kind, bytes) = generate(seed);
        kinds.count(format!("kinds: {kind}"));
        let expected = judge(&planner, &bytes, seed, &mut tally).map_err(|message| {
            format!("seed {seed} ({kind}): {message}\nsheet {}", hexadecimal::write(&bytes))
        })?;
        match kind {
            TWICE_AND_FAULT => coverage::alike::count_fault_beside(&mut tally, expected.refusal),
            STRICT_AND_FAULT => {
                coverage::strict::count_fault_beside(&mut tally, expected.work_refusal())
            }
            _ => {}
        }
    }
    let last = arguments.seed + count - 1;
    kinds.print(&format!("sheets made, seeds {} to {last}", arguments.seed));
    tally.print("cases compared");
    if arguments.complete {
        tally.keeps(&PROMISED)?;
        tally.keeps(&coverage::alike::promised())?;
        tally.keeps(&coverage::sums::PROMISED)?;
        tally.keeps(&coverage::work::promised())?;
        tally.keeps(&coverage::strict::promised())?;
        tally.keeps(&coverage::promised_editions::promised())?;
        tally.keeps(&twin::promised())?;
    }
    Ok(())
}
