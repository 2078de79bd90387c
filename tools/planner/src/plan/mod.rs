//! The plan of a sheet, examined before anything of it is shown.

pub mod accepted;
pub mod agreed;
pub mod constraints;
pub mod corner;
pub mod json;
pub mod lasso;
pub mod nths;
pub mod refused;
pub mod table;
pub mod text;
pub mod tight;
pub mod undercut;

use crate::certificate::Certificate;
use crate::input::Held;
use crate::run::{Loop, NotAllowed};
use crate::schedule::{Schedule, Sum};
use crate::stop::Stop;
use planner::{Planner, WorkPlanner};
use undercut::{undercut, BrokenOff, Undercut};

/// The buffers of the library's calls, kept from one plan to the next.
#[derive(Default)]
pub struct Buffers {
    plans: Planner,
    works: WorkPlanner,
}

/// Why corner points are no run: in a row, counted from 1, one lies on a strict bound or guard.
#[derive(Clone, Debug, PartialEq, Eq)]
pub struct NoRun {
    pub row: usize,
    pub what: String,
}

impl From<NotAllowed> for NoRun {
    /// A row is two members of a run, a delay and an edge.
    fn from(wrong: NotAllowed) -> NoRun {
        NoRun { row: 1 + wrong.place / 2, what: wrong.fault.to_string() }
    }
}

/// A plan as the library answers it.
#[derive(Clone, Debug, PartialEq, Eq)]
pub struct Plan {
    pub certificate: Certificate,
    /// What its cycle takes, costs and earns, in whole units.
    pub cycle: Sum,
}

impl Plan {
    fn of(sheet: &[u8], plan: &planner::Plan) -> Plan {
        let cycle = Sum { time: plan.units, cost: plan.cost, reward: plan.reward };
        Plan { certificate: Certificate::of(sheet, plan), cycle }
    }

    /// How much less than the ratio times its reward a run costs at most, as a fraction: minus the smallest potential over q, in cost.
    pub fn undercut(&self) -> (i128, i128) {
        (-i128::from(self.certificate.smallest_potential()), self.certificate.q.into())
    }
}

/// What the schedule that is shown is.
#[derive(Clone, Debug, PartialEq, Eq)]
pub enum Standing {
    /// The work plan of a sheet with nothing strict: it attains the ratio by a theorem.
    Work,
    /// The corner points, which are a run although something is strict.
    Exact,
    /// Another run, in nths along the regions of the lasso, that attains the ratio.
    Inside,
    /// Such a run that comes near the ratio.
    Near,
    /// The corner points, which are no run; and the least nths in which there is one, up to the finest.
    Corners(NoRun, Option<i64>),
}

#[derive(Debug)]
pub struct Planned {
    pub plan: Plan,
    pub schedule: Schedule,
    pub standing: Standing,
    /// What the cycle of the schedule takes, costs and earns, by replay.
    pub replayed: Loop,
    /// The run that undercuts the ratio most.
    pub undercut: Undercut,
}

impl Planned {
    /// Whether the schedule is the plan's own lasso.
    pub fn is_own(&self) -> bool {
        matches!(self.standing, Standing::Work | Standing::Exact | Standing::Corners(..))
    }

    /// What its cycle takes, costs and earns, in nths: as the library answers where it is the plan's own, and by replay otherwise.
    pub fn cycle(&self) -> Sum {
        match self.is_own() {
            true => self.plan.cycle.times(self.schedule.nths),
            false => self.replayed.sum,
        }
    }

    /// The run that undercuts the ratio most, where one is known that does at all.
    pub fn broken_off(&self) -> Option<&BrokenOff> {
        match &self.undercut {
            Undercut::Attained(run) if !run.rows.is_empty() => Some(run),
            _ => None,
        }
    }
}

/// A loop that makes money without reward, and why its corner points are no run where they are none.
#[derive(Debug)]
pub struct Gain {
    pub schedule: Schedule,
    pub no_run: Option<NoRun>,
}

#[derive(Debug)]
pub enum Outcome {
    Planned(Box<Planned>),
    /// There is a plan, but no run in the nths that were asked for; and the least that serve.
    Coarse {
        asked: i64,
        least: Option<i64>,
    },
    /// Why, a sentence a line, and the loop that makes money where that is why.
    Refused {
        refusal: planner::Refusal,
        why: Vec<String>,
        gain: Option<Gain>,
    },
}

/// The plan of what a file holds. `finer` is how many nths a unit has in its schedule; 1, or what is needed, where it is left open.
pub fn planned(buffers: &mut Buffers, held: &Held, finer: Option<i64>) -> Result<Outcome, Stop> {
    match held {
        Held::Refused { bytes, refusal, .. } => refused::no_sheet(bytes, refusal),
        Held::Sheet(source) => match buffers.plans.plan(&source.bytes) {
            Err(refusal) => refused::no_plan(source, refusal),
            Ok(plan) => {
                let plan = Plan::of(&source.bytes, &plan);
                lasso::examined(&plan)?;
                accepted::accepted(buffers, source, plan, finer)
            }
        },
    }
}

/// The same with the run that undercuts the ratio most, which is searched for by single steps.
pub fn planned_in_full(buffers: &mut Buffers, held: &Held, finer: Option<i64>) -> Result<Outcome, Stop> {
    let mut outcome = planned(buffers, held, finer)?;
    if let (Held::Sheet(source), Outcome::Planned(planned)) = (held, &mut outcome) {
        planned.undercut = undercut(&source.sheet, &planned.plan.certificate)?;
    }
    Ok(outcome)
}
