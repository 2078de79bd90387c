//! Runs in nths: delays and edges from the start of a sheet, with a loop at the end or broken off.

pub mod read;
mod replayer;

use crate::fraction::fraction;
use crate::schedule::{Schedule, Sum};
use crate::sheet::Sheet;
use crate::text::fault::{fault, Fault};
use replayer::Replay;

/// The largest number of nths in a unit.
pub const FINEST: i64 = 1000;

#[derive(Clone, Copy, Debug, PartialEq, Eq)]
pub enum Member {
    /// In nths.
    Delay(i64),
    /// By its number.
    Edge(usize),
}

#[derive(Clone, Debug, PartialEq, Eq)]
pub struct Run {
    pub nths: i64,
    pub members: Vec<Member>,
    /// How many members stand before the loop.
    pub before: usize,
}

/// What the loop takes, costs and earns, in nths.
#[derive(Clone, Copy, Debug, PartialEq, Eq)]
pub struct Loop {
    pub nths: i64,
    pub sum: Sum,
}

/// A run that was replayed: its loop, and what had passed before each member and at the end.
#[derive(Debug, PartialEq, Eq)]
pub struct Replayed {
    pub around: Loop,
    pub passed: Vec<Sum>,
}

impl std::fmt::Display for Loop {
    fn fmt(&self, f: &mut std::fmt::Formatter) -> std::fmt::Result {
        let [n, cost, reward] = [self.nths, self.sum.cost, self.sum.reward].map(i128::from);
        let ratio = if reward == 0 { "none".to_string() } else { fraction(cost, reward) };
        write!(f, "cost {}, reward {}, ratio {ratio}", fraction(cost, n), fraction(reward, n))
    }
}

/// A member that is not allowed, by its place; behind the last one it is the run that does not come back.
#[derive(Debug, PartialEq, Eq)]
pub struct NotAllowed {
    pub place: usize,
    pub fault: Fault,
}

/// Replays a run from the start of the sheet, and prices its loop.
pub fn replay(sheet: &Sheet, run: &Run) -> Result<Replayed, NotAllowed> {
    let (before, around) = run.members.split_at(run.before);
    let mut replay = Replay::start(sheet, run.nths);
    replay.go(before)?;
    let mark = replay.state.clone();
    replay.go(around)?;
    if around.is_empty() || mark != replay.state {
        let fault = fault("the run does not come back to where its loop began", "equal location and clock values at both ends");
        return fault.map_err(|fault| NotAllowed { place: run.members.len(), fault });
    }
    let passed = replay.passed;
    let around = Loop { nths: run.nths, sum: passed[run.members.len()] - passed[run.before] };
    Ok(Replayed { around, passed })
}

/// Replays members of a run, which need not come back: what had passed before each and at the end.
pub fn passed(sheet: &Sheet, nths: i64, members: &[Member]) -> Result<Vec<Sum>, NotAllowed> {
    let mut replay = Replay::start(sheet, nths);
    replay.go(members)?;
    Ok(replay.passed)
}

/// The run that a schedule is.
pub fn of_schedule(schedule: &Schedule) -> Run {
    let members = schedule.rows().flat_map(|row| [Member::Delay(row.wait), Member::Edge(row.edge)]).collect();
    Run { nths: schedule.nths, members, before: 2 * schedule.stem.len() }
}

#[cfg(test)]
mod tests {
    use super::*;
    use crate::text::parse;

    fn answer(members: &[Member], before: usize) -> Result<Loop, String> {
        let sheet = parse("clocks x\nlocation a\n  x <= 2\nedge e: a -> a\n  reset x\n").expect("a sheet");
        let run = Run { nths: 1, members: members.to_vec(), before };
        replay(&sheet, &run).map(|found| found.around).map_err(|wrong| wrong.fault.to_string())
    }

    #[test]
    fn time_does_not_run_back() {
        let members = [Member::Delay(2), Member::Delay(-1), Member::Edge(0)];
        assert_eq!(answer(&members, 0), Err("a delay of -1; expected 0 or more".to_string()));
    }

    #[test]
    fn an_empty_loop_is_none() {
        let back = "the run does not come back to where its loop began; expected equal location and clock values at both ends";
        assert_eq!(answer(&[Member::Edge(0)], 1), Err(back.to_string()));
        assert_eq!(answer(&[Member::Edge(0)], 0), Ok(Loop { nths: 1, sum: Sum::default() }));
    }
}
