//! Plans that are accepted: the schedule that is shown, examined.

use super::agreed::{agreed, earning};
use super::corner::{corners, Corners};
use super::lasso::adds_up;
use super::nths::{inside, least};
use super::undercut::Undercut;
use super::{Buffers, NoRun, Outcome, Plan, Planned, Standing};
use crate::run::{of_schedule, replay, Loop, NotAllowed};
use crate::schedule::{of_waits, Row, Schedule, Visit};
use crate::sheet::Sheet;
use crate::source::Source;
use crate::stop::Stop;
use std::cmp::Ordering;

pub fn accepted(buffers: &mut Buffers, source: &Source, plan: Plan, finer: Option<i64>) -> Result<Outcome, Stop> {
    let sheet = &source.sheet;
    if let Some(schedule) = worked(buffers, source)? {
        return own(sheet, plan, scaled(sheet, &schedule, finer.unwrap_or(1)), Standing::Work);
    }
    let corners = corners(sheet, &source.bytes, &plan.certificate.stem, &plan.certificate.cycle)?;
    match (replay(sheet, &of_schedule(&corners.schedule)), finer) {
        (Ok(_), _) => own(sheet, plan, scaled(sheet, &corners.schedule, finer.unwrap_or(1)), Standing::Exact),
        (Err(_), Some(n)) => match inside(sheet, &corners, n) {
            Some(schedule) => in_nths(sheet, plan, schedule),
            None => Ok(Outcome::Coarse { asked: n, least: least(sheet, &corners) }),
        },
        (Err(wrong), None) => approached(sheet, plan, corners, wrong),
    }
}

/// The work plan, where nothing is strict.
fn worked(buffers: &mut Buffers, source: &Source) -> Result<Option<Schedule>, Stop> {
    let visits =
        |pairs: planner::Pairs| -> Vec<Visit> { pairs.iter().map(|(wait, edge)| Visit { wait: wait.into(), edge: edge.into() }).collect() };
    match (buffers.works.plan(&source.bytes), source.sheet.is_closed()) {
        (Ok(work), true) => Ok(Some(of_waits(&source.sheet, 1, &visits(work.stem), &visits(work.cycle)))),
        (Err(refusal), false) if refusal.number() == 18 => Ok(None),
        (answer, _) => Err(Stop::Difference(format!("of the work plan the library answers {:?}", answer.map(|_| ())))),
    }
}

/// The same schedule, counted in nths.
fn scaled(sheet: &Sheet, schedule: &Schedule, n: i64) -> Schedule {
    let visits = |rows: &[Row]| -> Vec<Visit> { rows.iter().map(|row| Visit { wait: n * row.wait, edge: row.edge }).collect() };
    of_waits(sheet, n * schedule.nths, &visits(&schedule.stem), &visits(&schedule.cycle))
}

/// A schedule that is the plan's own lasso: its cycle has to take, cost and earn what the library answers, and so has the ratio.
fn own(sheet: &Sheet, plan: Plan, schedule: Schedule, standing: Standing) -> Result<Outcome, Stop> {
    let replayed = agreed(sheet, &schedule)?;
    adds_up(&plan, "schedule", replayed.nths, replayed.sum)?;
    Ok(Outcome::Planned(Box::new(Planned { plan, schedule, standing, replayed, undercut: Undercut::Unsought })))
}

/// The ratio of a loop that earns beside the ratio of the plan.
fn compared(plan: &Plan, found: &Loop) -> Ordering {
    let [p, q, cost, reward] = [plan.certificate.p, plan.certificate.q, found.sum.cost, found.sum.reward].map(i128::from);
    (q * cost).cmp(&(p * reward))
}

/// A run in nths, which is not cheaper than the ratio, by a theorem.
fn in_nths(sheet: &Sheet, plan: Plan, schedule: Schedule) -> Result<Outcome, Stop> {
    let replayed = earning(sheet, &schedule)?;
    let standing = match compared(&plan, &replayed) {
        Ordering::Less => {
            let (p, q) = (plan.certificate.p, plan.certificate.q);
            return Err(Stop::Difference(format!("a run has {replayed}, below the ratio {p}/{q}")));
        }
        Ordering::Equal => Standing::Inside,
        Ordering::Greater => Standing::Near,
    };
    Ok(Outcome::Planned(Box::new(Planned { plan, schedule, standing, replayed, undercut: Undercut::Unsought })))
}

/// The run in the least nths where that attains the ratio, or else the corner points, with every bound and guard taken as one that may
/// be reached.
fn approached(sheet: &Sheet, plan: Plan, corners: Corners, wrong: NotAllowed) -> Result<Outcome, Stop> {
    let least = least(sheet, &corners);
    if let Some(schedule) = least.and_then(|n| inside(sheet, &corners, n)) {
        if compared(&plan, &earning(sheet, &schedule)?) == Ordering::Equal {
            return in_nths(sheet, plan, schedule);
        }
    }
    own(&sheet.closed(), plan, corners.schedule, Standing::Corners(NoRun::from(wrong), least))
}

#[cfg(test)]
mod tests {
    use super::*;
    use crate::certificate::Certificate;
    use crate::schedule::Sum;
    use crate::sheet::encode::encode;
    use crate::text::parse;

    /// Waiting costs 1 a unit, and the edge earns 1.
    fn sheet() -> Sheet {
        parse("clocks x\nlocation a\n  x <= 2\n  cost 1\nedge e: a -> a\n  reset x\n  reward 1\n").expect("a sheet")
    }

    fn plan(p: i64, cycle: Sum) -> Plan {
        let (nodes, potentials, stem, codes) = (vec![], vec![], vec![], vec![]);
        Plan { certificate: Certificate { sheet: encode(&sheet()), p, q: 1, nodes, potentials, stem, cycle: codes }, cycle }
    }

    fn standing(outcome: Result<Outcome, Stop>) -> Result<Standing, String> {
        match outcome {
            Ok(Outcome::Planned(planned)) => Ok(planned.standing),
            Err(Stop::Difference(what)) => Err(what),
            other => panic!("{other:?}"),
        }
    }

    #[test]
    fn a_run_below_the_ratio_is_a_difference() {
        let visits = [Visit { wait: 2, edge: 0 }];
        let run = |p: i64| standing(in_nths(&sheet(), plan(p, Sum::default()), of_waits(&sheet(), 1, &visits, &visits)));
        assert_eq!([run(1), run(2)], [Ok(Standing::Near), Ok(Standing::Inside)]);
        assert_eq!(run(3), Err("a run has cost 2, reward 1, ratio 2, below the ratio 3/1".to_string()));
    }

    #[test]
    fn a_schedule_with_other_sums_than_the_answer_is_a_difference() {
        let once = [Visit { wait: 2, edge: 0 }];
        let told = |nths: i64, cycle: &[Visit], sum: Sum| {
            let schedule = scaled(&sheet(), &of_waits(&sheet(), 1, &once, cycle), nths);
            standing(own(&sheet(), plan(2, sum), schedule, Standing::Work))
        };
        let sum = Sum { time: 2, cost: 2, reward: 1 };
        assert_eq!([told(1, &once, sum), told(3, &once, sum)], [Ok(Standing::Work), Ok(Standing::Work)]);
        let others = [Sum { time: 1, ..sum }, Sum { cost: 3, ..sum }, Sum { reward: 2, ..sum }];
        let words = ["takes 1, costs 2, earns 1", "takes 2, costs 3, earns 1", "takes 2, costs 2, earns 2"];
        for (other, words) in others.into_iter().zip(words) {
            let what = format!("the cycle of the schedule takes 2, costs 2, earns 1, and the library answers that it {words}");
            assert_eq!([told(1, &once, other), told(3, &once, other)], [Err(what.clone()), Err(what)]);
        }
        let twice = told(1, &once.repeat(2), sum);
        assert_eq!(
            twice,
            Err("the cycle of the schedule takes 4, costs 4, earns 2, and the library answers that it takes 2, costs 2, earns 1"
                .to_string())
        );
    }
}
