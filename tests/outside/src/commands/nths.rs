//! Runs in nths of small sheets, searched for what a plan's answer rules out, and for what it
//! promises where no bound and no guard is strict.

use crate::commands::arguments::Arguments;
use crate::coverage::tally::Tally;
use crate::graphs::questions::{idle_cycles, some_cycle_earns, some_idle_cycle_gains, Idle};
use crate::hexadecimal;
use crate::judges::undercut::{self, judge_undercut};
use crate::judges::verdict::Verdict;
use crate::library::answers::{Answered, Planner};
use crate::reading::sheet::Sheet;
use crate::reading::strict::all_closed;
use crate::reading::write::write;
use crate::runs::in_nths::{explore, least_runs, loop_below, Runs};
use crate::sheets::small::make;

const MOST_NTHS: u32 = 4;

/// How many sheets are searched where no number is given.
const SHEETS: u64 = 10_000;

/// Each kind and the least number of its cases among that number of sheets.
const PROMISED: [(&str, u64); 19] = [
    (NONE_BELOW, 3000),
    ("accepted: idle loops, all cost", 200),
    ("accepted: idle loops, all free", 100),
    ("accepted: idle loops, some cost and some are free", 20),
    (CLOSED_ATTAINED, 1000),
    (STRICT_NOT_ATTAINED, 300),
    (NONE_EARNS, 2000),
    ("refused 13: idle loops, none", 1000),
    ("refused 13: idle loops, all cost", 200),
    ("refused 13: idle loops, all free", 200),
    ("refused 13: idle loops, some gain and none costs", 100),
    ("refused 13: idle loops, some gain and some cost", 100),
    (CLOSED_GAINS, 50),
    ("four clocks, closed, plan answers:  0", 150),
    ("four clocks, closed, plan answers: 13", 100),
    ("four clocks, closed, plan answers: 14", 5),
    ("four clocks, strict, plan answers:  0", 300),
    ("four clocks, strict, plan answers: 13", 300),
    ("four clocks, strict, plan answers: 14", 10),
];

const NONE_BELOW: &str =
    "accepted: no loop below the ratio, and no idle one below 0, for n = 1, 2, 3, 4";
const CLOSED_ATTAINED: &str = "all closed, attained: n = 1";
const STRICT_NOT_ATTAINED: &str = "some strict, attained: not with n up to 4";
const NONE_EARNS: &str = "refused 13: no loop earns for n = 1, 2, 3, 4";
const CLOSED_GAINS: &str =
    "refused 14: all closed, and with n = 1 a loop earns and an idle one gains";

/// So little more than p/q that no ratio of another loop lies between. Such a ratio a/b is at least
/// 1/(b q) away, and b, n times the reward of a loop through at most 30,000 states, is below 10^12.
fn raised(p: i64, q: i64) -> (i128, i128) {
    let scale = 1_000_000_000_000;
    (i128::from(p) * scale + 1, i128::from(q) * scale)
}

fn earns(runs: &Runs) -> bool {
    some_cycle_earns(runs.states, &runs.members)
}

fn idle_gains(runs: &Runs) -> bool {
    some_idle_cycle_gains(runs.states, &runs.members)
}

/// What the idle loops cost, in the finest nths.
fn idle_loops(all: &[Runs]) -> Idle {
    let finest = all.last().expect("some n is tried");
    idle_cycles(finest.states, &finest.members)
}

/// The least weights of runs to each state, for each n.
fn judge_loops(all: &[Runs], p: i64, q: i64, tally: &mut Tally) -> Verdict<Vec<Vec<i128>>> {
    let mut weights = Vec::new();
    for (n, runs) in (1..).zip(all) {
        if idle_gains(runs) {
            return Err(format!("an idle loop of a run in nths, n = {n}, costs less than 0"));
        }
        weights.push(least_runs(runs, p.into(), q.into()).ok_or_else(|| {
            format!("a loop of a run in nths, n = {n}, is below the ratio {p}/{q}")
        })?);
    }
    tally.count(NONE_BELOW);
    tally.count(format!("accepted: idle loops, {}", idle_loops(all).named()));
    Ok(weights)
}

fn judge_attained(sheet: &Sheet, all: &[Runs], p: i64, q: i64, tally: &mut Tally) -> Verdict<()> {
    let (above_p, above_q) = raised(p, q);
    let attained = (1..).zip(all).find(|(_, runs)| loop_below(runs, above_p, above_q));
    match (all_closed(sheet), attained.map(|(n, _): (u32, _)| n)) {
        (true, Some(1)) => tally.count(CLOSED_ATTAINED),
        (true, _) => return Err(format!("no loop with n = 1 attains the ratio {p}/{q}")),
        (false, None) => tally.count(STRICT_NOT_ATTAINED),
        (false, Some(n)) => tally.count(format!("some strict, attained: n = {n}")),
    }
    Ok(())
}

fn judge_accepted(
    sheet: &Sheet,
    all: &[Runs],
    answered: &Answered,
    tally: &mut Tally,
) -> Verdict<()> {
    let (p, q) = (answered.numbers.p, answered.numbers.q);
    let weights = judge_loops(all, p, q, tally)?;
    judge_attained(sheet, all, p, q, tally)?;
    judge_undercut(sheet, all, &weights, answered, tally)
}

/// Idle loops there may be, whatever they cost.
fn judge_13(all: &[Runs], tally: &mut Tally) -> Verdict<()> {
    if let Some(at) = all.iter().position(earns) {
        return Err(format!("refused 13, but a loop of a run in nths, n = {}, earns", at + 1));
    }
    tally.count(NONE_EARNS);
    tally.count(format!("refused 13: idle loops, {}", idle_loops(all).named()));
    Ok(())
}

/// Where a bound or a guard is strict, runs need not come to what their corner points do.
fn judge_14(sheet: &Sheet, all: &[Runs], tally: &mut Tally) -> Verdict<()> {
    if !all_closed(sheet) {
        tally.count("refused 14: some strict");
        return Ok(());
    }
    if !earns(&all[0]) {
        return Err("refused 14, but no loop with n = 1 earns".to_string());
    }
    if !idle_gains(&all[0]) {
        return Err("refused 14, but no idle loop with n = 1 costs less than 0".to_string());
    }
    tally.count(CLOSED_GAINS);
    Ok(())
}

fn judge_sheet(planner: &Planner, sheet: &Sheet, bytes: &[u8], tally: &mut Tally) -> Verdict<()> {
    let all: Option<Vec<Runs>> = (1..=MOST_NTHS).map(|n| explore(sheet, n)).collect();
    let all = match all {
        Some(all) => all,
        None => {
            tally.count("left out: too many states");
            return Ok(());
        }
    };
    let answered = planner.answer(bytes);
    match answered.refusal {
        0 => judge_accepted(sheet, &all, &answered, tally)?,
        13 => judge_13(&all, tally)?,
        14 => judge_14(sheet, &all, tally)?,
        refusal => tally.count(format!("left out: refused {refusal}")),
    }
    if sheet.clocks == 4 {
        let strictness = if all_closed(sheet) { "closed" } else { "strict" };
        tally.count(format!("four clocks, {strictness}, plan answers: {:>2}", answered.refusal));
    }
    tally.add("states: in all", all.iter().map(|runs| runs.states as u64).sum());
    Ok(())
}

pub fn run(arguments: &Arguments) -> Verdict<()> {
    let count = arguments.count.unwrap_or(SHEETS);
    let planner = Planner { fault: arguments.fault };
    let mut tally = Tally::default();
    for seed in arguments.seed..arguments.seed + count {
        let sheet = make(seed);
        let bytes = write(&sheet).bytes;
        judge_sheet(&planner, &sheet, &bytes, &mut tally).map_err(|message| {
            format!("seed {seed}: {message}\nsheet {}", hexadecimal::write(&bytes))
        })?;
    }
    tally.print(&format!(
        "runs in nths, seeds {} to {}",
        arguments.seed,
        arguments.seed + count - 1
    ));
    if arguments.complete {
        tally.keeps(&PROMISED)?;
        tally.keeps(&undercut::PROMISED)?;
    }
    Ok(())
}
