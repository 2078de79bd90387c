//! The answer as it is read.

use super::table::tables;
use super::undercut::{BrokenOff, Undercut};
use super::{Gain, NoRun, Outcome, Plan, Planned, Standing};
use crate::fraction::{about, counted, fraction};
use crate::input::Held;
use crate::run::FINEST;
use crate::schedule::{shown, sum};
use crate::sheet::Sheet;

/// What the rows of a schedule and the sums of its stem rest on.
fn basis(standing: &Standing) -> &'static str {
    match standing {
        Standing::Work | Standing::Exact | Standing::Inside | Standing::Near => REPLAY,
        Standing::Corners(..) => CLOSED_REPLAY,
    }
}

/// What the sums of its cycle rest on: the answer too where it is the plan's own.
fn cycle_basis(planned: &Planned) -> String {
    let replay = basis(&planned.standing);
    match planned.is_own() {
        true => format!("{PROVED}, and {replay}"),
        false => replay.to_string(),
    }
}

const PROVED: &str = "proved";
const REPLAY: &str = "checked by replay";
const CLOSED_REPLAY: &str = "checked by replay, with each bound and guard taken as one that may be reached";
const SEARCH: &str = "by the tool's own search";

fn multiples(n: i64) -> String {
    match n {
        1 => "whole units".to_string(),
        _ => format!("multiples of 1/{n}"),
    }
}

/// How far a run in nths is from the ratio.
fn near(planned: &Planned) -> String {
    let Planned { plan: Plan { certificate, .. }, replayed, .. } = planned;
    let [p, q, cost, reward] = [certificate.p, certificate.q, replayed.sum.cost, replayed.sum.reward].map(i128::from);
    let (own, own_about, above) = (fraction(cost, reward), about(cost, reward), fraction(cost * q - p * reward, reward * q));
    let waits = multiples(replayed.nths);
    format!("approached: the cycle below waits in {waits} and has {own}, {own_about}, which is {above} more ({REPLAY})\n")
}

/// In which nths there is a run.
fn served(least: Option<i64>) -> String {
    match least {
        Some(n) => format!("--nths {n} is the least that serves ({SEARCH})\n"),
        None => format!("no --nths up to {FINEST} serves ({SEARCH})\n"),
    }
}

/// A run that attains the ratio.
fn by_run(planned: &Planned) -> String {
    let waits = multiples(planned.schedule.nths);
    format!("attained by the cycle below, which waits in {waits} and keeps the strict bounds and guards ({REPLAY})\n")
}

/// The plan's own cycle, where another one is shown.
fn corner_cycle(planned: &Planned) -> String {
    format!("the plan's cycle of corner points {} ({PROVED})\n", planned.plan.cycle.words(1))
}

/// Whether the schedule that is shown attains the ratio.
fn attained(planned: &Planned) -> String {
    match &planned.standing {
        Standing::Work => format!("attained by the cycle below: no bound and no guard of the sheet is strict ({PROVED})\n"),
        Standing::Exact => by_run(planned),
        Standing::Inside => by_run(planned) + &corner_cycle(planned),
        Standing::Near => near(planned) + &corner_cycle(planned),
        Standing::Corners(NoRun { row, what }, least) => {
            let runs = match least {
                Some(_) => "approached by runs in nths along the same regions: ",
                None => "no run along the same regions was found: ",
            };
            format!("not to be worked by: the corner points below are no run: in row {row}, {what}\n{runs}{}", served(*least))
        }
    }
}

/// A part of a schedule: its rows, and below them its sums with what these rest on.
fn part(head: &str, rows: &str, sums: &str, basis: &str) -> String {
    format!("\n{head}:\n{rows}  {sums} ({basis})\n")
}

/// How often a cycle comes round that takes this number of nths.
fn period(time: i64, nths: i64) -> String {
    match time {
        0 => "cycle, repeating, in no time".to_string(),
        time => format!("cycle, repeating every {}", fraction(time.into(), nths.into())),
    }
}

/// How far a run that breaks off may undercut the ratio, and what is known of one that does.
fn undercut(planned: &Planned) -> String {
    let (less, q) = planned.plan.undercut();
    if less == 0 {
        return format!("undercut 0: wherever a run breaks off, it costs no less than the ratio times its reward ({PROVED})\n");
    }
    let decimal = if less % q == 0 { String::new() } else { format!(", {}", about(less, q)) };
    let known = match planned.undercut {
        Undercut::Attained(_) => format!("; the run broken off below costs exactly so much less ({REPLAY})"),
        Undercut::Unattained => {
            format!("; no run in whole units costs exactly so much less ({SEARCH}), and whether one in nths does is not known")
        }
        Undercut::Unsought => String::new(),
    };
    let most = format!("wherever a run breaks off, it costs at most so much less than the ratio times its reward ({PROVED})");
    format!("undercut {}{decimal}: {most}{known}\n", fraction(less, q))
}

/// The run that undercuts the ratio most.
fn broken_off(run: &BrokenOff, table: &str, plan: &Plan) -> String {
    let less = fraction(-plan.certificate.weight(run.sum.cost, run.sum.reward), plan.certificate.q.into());
    let sums = format!("{}: {less} less than the ratio times its reward", run.sum.words(1));
    part("run, broken off", table, &sums, REPLAY)
}

fn planned_text(sheet: &Sheet, name: &str, planned: &Planned) -> String {
    let Planned { plan, schedule, .. } = planned;
    let (nths, cycle, run) = (schedule.nths, planned.cycle(), planned.broken_off());
    let run_rows = run.map_or(Vec::new(), |run| run.rows.clone());
    let [stem_table, cycle_table, run_table] =
        tables(sheet, [(nths, shown(&schedule.stem)), (nths, shown(&schedule.cycle)), (1, run_rows)]);
    let (p, q) = (plan.certificate.p, plan.certificate.q);
    let mut text = format!("{name}: planned\n\n");
    text += &format!("ratio {p}/{q}, {}: no repeating schedule costs less per reward ({PROVED})\n", about(p.into(), q.into()));
    text += &attained(planned);
    text += &format!("nodes {} of 2,048: all that can be reached ({PROVED})\n", counted(plan.certificate.nodes.len()));
    text += &undercut(planned);
    text += &part("stem, once", &stem_table, &sum(&schedule.stem).words(nths), basis(&planned.standing));
    text += &part(&period(cycle.time, nths), &cycle_table, &cycle.words(nths), &cycle_basis(planned));
    text + &run.map_or(String::new(), |run| broken_off(run, &run_table, plan))
}

/// The loop of refusal 14, step by step.
fn gain_text(sheet: &Sheet, gain: &Gain) -> String {
    let Gain { schedule, no_run } = gain;
    let [stem, cycle] = tables(sheet, [(1, shown(&schedule.stem)), (1, shown(&schedule.cycle))]);
    let (mut text, basis) = match no_run {
        None => (String::new(), REPLAY),
        Some(NoRun { row, what }) => {
            (format!("its corner points are no run, and runs may only come near: in row {row}, {what}\n"), CLOSED_REPLAY)
        }
    };
    text += &part("the way to it", &stem, &sum(&schedule.stem).words(1), basis);
    text + &part("the loop", &cycle, &sum(&schedule.cycle).words(1), basis)
}

pub fn text(held: &Held, outcome: &Outcome) -> String {
    let (name, none) = (held.name(), Sheet::default());
    let sheet = held.sheet().unwrap_or(&none);
    match outcome {
        Outcome::Planned(planned) => planned_text(sheet, name, planned),
        Outcome::Coarse { asked, least } => {
            let waits = multiples(*asked);
            let none = format!("no run that waits in {waits} goes along the regions of the plan's lasso, comes back and earns ({SEARCH})");
            format!("{name}: refused --nths {asked}\n\n{none}\n{}", served(*least))
        }
        Outcome::Refused { refusal, why, gain } => {
            let mut text = format!("{name}: refused {}\n\nanswered no: {}\n", refusal.number(), refusal.question());
            for line in why {
                text += &format!("{line}\n");
            }
            text + &gain.as_ref().map_or(String::new(), |gain| gain_text(sheet, gain))
        }
    }
}
