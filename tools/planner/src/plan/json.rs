//! The answer as a line of JSON. Its form is written down in README.md beside the sources.

use super::undercut::{BrokenOff, Undercut};
use super::{Gain, Outcome, Planned, Standing};
use crate::certificate::Certificate;
use crate::fraction::{common_divisor, decimal};
use crate::input::Held;
use crate::json::{list, string, Object};
use crate::schedule::{shown, sum, Schedule, Shown, Sum};
use crate::sheet::Sheet;

/// In lowest terms.
fn quotient(upper: i128, lower: i128) -> Object {
    let d = common_divisor(upper, lower).max(1);
    Object::new().value("p", upper / d).value("q", lower / d).value("about", decimal(upper, lower))
}

fn ratio(upper: i64, lower: i64) -> String {
    quotient(upper.into(), lower.into()).end()
}

fn row(sheet: &Sheet, row: &Shown) -> String {
    let edge = row.edge.map_or("null".to_string(), |edge| string(&sheet.edges[edge].name));
    let object = Object::new().value("at", row.at).value("wait", row.wait).text("location", &sheet.locations[row.location].name);
    object.value("edge", edge).value("cost", row.cost).value("reward", row.reward).end()
}

fn part(sheet: &Sheet, rows: &[Shown], sum: Sum) -> String {
    let object = Object::new().value("time", sum.time).value("cost", sum.cost).value("reward", sum.reward);
    object.value("rows", list(rows.iter().map(|found| row(sheet, found)))).end()
}

fn parts(object: Object, sheet: &Sheet, schedule: &Schedule, cycle: Sum) -> String {
    let object = object.value("nths", schedule.nths).value("stem", part(sheet, &shown(&schedule.stem), sum(&schedule.stem)));
    object.value("cycle", part(sheet, &shown(&schedule.cycle), cycle)).end()
}

/// What the plan's cycle takes, costs and earns.
fn cycle(sum: Sum) -> String {
    Object::new().value("units", sum.time).value("cost", sum.cost).value("reward", sum.reward).end()
}

fn or_null(number: Option<i64>) -> String {
    number.map_or("null".to_string(), |number| number.to_string())
}

fn schedule(sheet: &Sheet, planned: &Planned) -> String {
    let (kind, basis) = match planned.standing {
        Standing::Work => ("attained", "proved"),
        Standing::Exact | Standing::Inside => ("attained", "replayed"),
        Standing::Near => ("near", "replayed"),
        Standing::Corners(..) => ("corners", "replayed"),
    };
    let object = Object::new().text("is", kind).text("rests_on", basis);
    let object = object.value("ratio", ratio(planned.replayed.sum.cost, planned.replayed.sum.reward));
    let object = match planned.standing {
        Standing::Corners(_, least) => object.value("least_nths", or_null(least)),
        _ => object,
    };
    parts(object, sheet, &planned.schedule, planned.cycle())
}

/// The run stands only where it was searched for.
fn undercut(sheet: &Sheet, planned: &Planned) -> String {
    let (less, q) = planned.plan.undercut();
    let (object, run) = (quotient(less, q), |run: &BrokenOff| part(sheet, &run.rows, run.sum));
    match planned.undercut {
        Undercut::Unsought => object.end(),
        _ => object.value("run", planned.broken_off().map_or("null".to_string(), run)).end(),
    }
}

/// The object, without a line end.
pub fn json(held: &Held, outcome: &Outcome) -> String {
    let none = Sheet::default();
    let sheet = held.sheet().unwrap_or(&none);
    let object = Object::new().text("file", held.name());
    match outcome {
        Outcome::Planned(planned) => {
            let Certificate { p, q, nodes, .. } = &planned.plan.certificate;
            let object = object.text("answer", "planned").value("ratio", ratio(*p, *q)).value("nodes", nodes.len());
            let object = object.value("cycle", cycle(planned.plan.cycle)).value("schedule", schedule(sheet, planned));
            object.value("undercut", undercut(sheet, planned)).end()
        }
        Outcome::Coarse { asked, least } => object.text("answer", "no run").value("nths", asked).value("least_nths", or_null(*least)).end(),
        Outcome::Refused { refusal, why, gain } => {
            let object = object.text("answer", "refused").value("refusal", refusal.number()).text("question", refusal.question());
            let object = object.value("why", list(why.iter().map(|line| string(line))));
            match gain {
                Some(Gain { schedule, no_run }) => {
                    let kind = Object::new().text("is", if no_run.is_none() { "run" } else { "corners" });
                    object.value("loop", parts(kind, sheet, schedule, sum(&schedule.cycle))).end()
                }
                None => object.end(),
            }
        }
    }
}
