//! The pairs of a work plan as a run with n = 1, exact in its sums.

use crate::judges::verdict::Verdict;
use crate::reading::sheet::Sheet;
use crate::runs::in_nths::{admitted, after_delay, after_edge, State};

/// The whole units of a wait, and the number of the edge that is taken then.
pub type Pair = (u16, u16);

/// Where a run has come to, and what it has cost and earned.
pub struct Run {
    pub state: State,
    pub cost: i128,
    pub reward: i128,
}

/// Goes on by one pair, or says which rule is broken.
fn take(sheet: &Sheet, run: &Run, (wait, number): Pair) -> Result<Run, &'static str> {
    let here = &sheet.locations[run.state.location];
    let waited = after_delay(sheet, &run.state, wait.into());
    if !admitted(sheet, &waited, 1) {
        return Err("the wait breaks a bound");
    }
    let edge = sheet.edges.get(usize::from(number)).ok_or("there is no such edge")?;
    let state = after_edge(sheet, &waited, edge, 1).ok_or("the edge is not allowed")?;
    if !admitted(sheet, &state, 1) {
        return Err("the edge breaks a bound of its target");
    }
    let units = i128::from(wait);
    Ok(Run {
        state,
        cost: run.cost + units * i128::from(here.cost) + i128::from(edge.cost),
        reward: run.reward + units * i128::from(here.reward) + i128::from(edge.reward),
    })
}

/// The run of the pairs from a state; `part` names them where it is none.
pub fn replay(sheet: &Sheet, from: State, pairs: &[Pair], part: &str) -> Verdict<Run> {
    let mut run = Run { state: from, cost: 0, reward: 0 };
    for (place, &pair) in pairs.iter().enumerate() {
        run = take(sheet, &run, pair).map_err(|rule| {
            let (wait, edge) = pair;
            format!("work plan: {part}, pair {place}, wait {wait} and edge {edge}: {rule}")
        })?;
    }
    Ok(run)
}
