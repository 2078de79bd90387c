//! The proved planner for double-priced timed sheets.
//!
//! A sheet is a small timed automaton written as bytes. [`check`] tells whether bytes are a sheet,
//! [`step`] takes one step of it, [`Planner::plan`] finds the least cost per reward of a cycle of
//! corner points that earns, which no repeating schedule undercuts that waits in fractions of a unit,
//! and a lasso whose cycle has it, and [`WorkPlanner::plan`] makes of such a lasso a schedule that
//! waits in whole units. `docs/SHEET.md` says what these are.
//!
//! ```
//! let bench = [1, 1, 1, 1, 5, 1, 0, 5, 15, 0, 0, 0, 5, 0, 2, 0, 1, 2];
//! let mut planner = planner::Planner::new();
//! let plan = planner.plan(&bench)?;
//! assert_eq!((plan.p, plan.q, plan.nodes.len()), (3, 1, 7));
//! # Ok::<(), planner::Refusal>(())
//! ```
//!
//! The answers are those of the functions that `crates/exports` proves, in the static library that
//! `rt lib --cpu x86-64` writes there. The library allocates nothing and keeps no state; a plan takes up
//! to 878 KB of the calling thread's stack and a work plan up to 915 KB (measured), and Rust's
//! threads have 2 MB.
#![deny(missing_docs)]
#![deny(unsafe_code)]

pub mod calls;
#[allow(unsafe_code)]
mod exported;
mod plan;
mod refusal;
mod work;

pub use plan::{Plan, Planner};
pub use refusal::Refusal;
pub use work::{Pairs, WorkPlan, WorkPlanner};

/// The bytes of the longest sheet; a longer one is refused with 2.
pub const LONGEST_SHEET: usize = 656;

/// The least entries that each buffer of a plan has, and the most nodes that are reachable.
pub const LEAST_ENTRIES: usize = 2048;

/// The least entries that each buffer of a work plan has, and the most pairs of one.
pub const LEAST_PAIRS: usize = 2049;

/// The code of one unit of delay. Codes 0 to 31 are the edges of the sheet.
pub const UNIT: u16 = 32;

/// The code of a region move.
pub const MOVE: u16 = 33;

/// What an allowed step leads to.
#[derive(Clone, Copy, Debug, PartialEq, Eq)]
pub struct Step {
    /// The number of the node that the step leads to.
    pub node: u64,
    /// What the step costs.
    pub cost: i64,
    /// What the step earns.
    pub reward: i64,
    /// The units of time that it takes: 1 for [`UNIT`], 0 for any other code.
    pub units: i64,
}

/// Checks a sheet: questions 2 to 11 and 17.
///
/// ```
/// assert_eq!(planner::check(&[]).unwrap_err().number(), 2);
/// ```
pub fn check(sheet: &[u8]) -> Result<(), Refusal> {
    Refusal::of(calls::check(sheet))
}

/// Takes a step from a node of a sheet, the start being node 0: questions 2 to 11 and 17, then 15
/// and 16.
///
/// ```
/// let bench = [1, 1, 1, 1, 5, 1, 0, 5, 15, 0, 0, 0, 5, 0, 2, 0, 1, 2];
/// let step = planner::step(&bench, 0, planner::MOVE)?;
/// assert_eq!((step.cost, step.reward, step.units), (0, 0, 0));
/// assert_eq!(planner::step(&bench, 0, 0).unwrap_err().number(), 16);
/// # Ok::<(), planner::Refusal>(())
/// ```
pub fn step(sheet: &[u8], node: u64, code: u16) -> Result<Step, Refusal> {
    let mut numbers = calls::StepNumbers::default();
    Refusal::of(calls::step(sheet, node, code, &mut numbers))?;
    let calls::StepNumbers { number: node, cost, reward, units } = numbers;
    Ok(Step { node, cost, reward, units })
}
