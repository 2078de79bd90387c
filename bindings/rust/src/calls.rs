//! The exported functions as they are, with buffers and numbers that the caller lends.
//!
//! For callers that keep their own memory, or want to see what a call writes and what it leaves
//! alone. Each answers 0 or the refusal. Each call writes each of its numbers, whatever was there;
//! where it refuses, they are all 0.

/// The numbers of a step.
#[derive(Clone, Copy, Debug, Default, PartialEq, Eq)]
pub struct StepNumbers {
    /// The number of the node that the step leads to.
    pub number: u64,
    /// What the step costs.
    pub cost: i64,
    /// What the step earns.
    pub reward: i64,
    /// The units of time that it takes: 1 for code 32, 0 for any other.
    pub units: i64,
}

/// The numbers of a plan.
#[derive(Clone, Copy, Debug, Default, PartialEq, Eq)]
pub struct PlanNumbers {
    /// The upper number of the ratio, in lowest terms.
    pub p: i64,
    /// The lower number of the ratio, at least 1.
    pub q: i64,
    /// How many nodes are reachable.
    pub n: i64,
    /// How many steps the stem has.
    pub s: i64,
    /// How many steps the cycle has, at least 1.
    pub m: i64,
    /// The units of time that the cycle takes.
    pub units: i64,
    /// What the cycle costs.
    pub cost: i64,
    /// What the cycle earns, at least 1.
    pub reward: i64,
}

/// The numbers of a work plan.
#[derive(Clone, Copy, Debug, Default, PartialEq, Eq)]
pub struct WorkNumbers {
    /// How many pairs the stem has, at least 1.
    pub stem: i64,
    /// How many pairs the cycle has, at least 1.
    pub cycle: i64,
}

/// Questions 2 to 11 and 17.
pub fn check(sheet: &[u8]) -> u8 {
    crate::exported::check(sheet)
}

/// Questions 2 to 11 and 17, then 15 and 16.
///
/// ```
/// use planner::calls::{step, StepNumbers};
///
/// let mut numbers = StepNumbers { number: 7, cost: 7, reward: 7, units: 7 };
/// assert_eq!(step(&[], 0, 33, &mut numbers), 2);
/// assert_eq!(numbers, StepNumbers::default());
/// ```
pub fn step(sheet: &[u8], node: u64, code: u16, numbers: &mut StepNumbers) -> u8 {
    crate::exported::step(sheet, node, code, numbers)
}

/// Questions 1 to 14 and 17.
///
/// Where it answers 0, `nodes` and `potentials` hold n entries and `steps` holds s and m, the stem
/// and then the cycle; the entries behind are 0, to the end of each buffer. Refusals 1 to 11 and 17
/// write to no buffer, 12 to 14 set every entry of all three to 0.
///
/// ```
/// use planner::calls::{plan, PlanNumbers};
///
/// let mut numbers =
///     PlanNumbers { p: 7, q: 7, n: 7, s: 7, m: 7, units: 7, cost: 7, reward: 7 };
/// let mut nodes = [7; 2047];
/// assert_eq!(plan(&[], &mut nodes, &mut [7; 2048], &mut [7; 2048], &mut numbers), 1);
/// assert_eq!(nodes, [7; 2047]);
/// assert_eq!(numbers, PlanNumbers::default());
/// ```
pub fn plan(
    sheet: &[u8],
    nodes: &mut [u64],
    potentials: &mut [i64],
    steps: &mut [u16],
    numbers: &mut PlanNumbers,
) -> u8 {
    crate::exported::plan(sheet, nodes, potentials, steps, numbers)
}

/// Questions 1 to 14, 17 and 18.
///
/// Where it answers 0, `waits` and `edges` hold the pairs of the stem and then of the cycle; the
/// entries behind are 0, to the end of each buffer. Refusals 1 to 11 and 17 write to no buffer, 12 to
/// 14 and 18 set every entry of both to 0.
///
/// ```
/// use planner::calls::{work, WorkNumbers};
///
/// let mut numbers = WorkNumbers { stem: 7, cycle: 7 };
/// let mut edges = [7; 2048];
/// assert_eq!(work(&[], &mut [7; 2049], &mut edges, &mut numbers), 1);
/// assert_eq!(edges, [7; 2048]);
/// assert_eq!(numbers, WorkNumbers::default());
/// ```
pub fn work(sheet: &[u8], waits: &mut [u16], edges: &mut [u16], numbers: &mut WorkNumbers) -> u8 {
    crate::exported::work(sheet, waits, edges, numbers)
}
