//! Plans, in buffers that are kept from one to the next.

use crate::calls::{self, PlanNumbers};
use crate::{Refusal, LEAST_ENTRIES};

/// The buffers that plans are written to. One planner can plan any number of sheets.
#[derive(Clone)]
pub struct Planner {
    nodes: Box<[u64]>,
    potentials: Box<[i64]>,
    steps: Box<[u16]>,
}

/// The plan of an accepted sheet.
#[derive(Clone, Copy, Debug, PartialEq, Eq)]
pub struct Plan<'a> {
    /// The upper number of the least ratio p / q of cost over reward of a cycle that earns, in lowest
    /// terms.
    pub p: i64,
    /// The lower number of the ratio, at least 1.
    pub q: i64,
    /// The numbers of the reachable nodes, rising.
    pub nodes: &'a [u64],
    /// Their potentials, in the same order: the least weight of a walk from the start, where a step
    /// weighs q times its cost minus p times its reward. No run weighs less than the smallest of
    /// them, wherever it breaks off and in whatever fractions of a unit it waits.
    pub potentials: &'a [i64],
    /// The codes of the steps that lead from the start to the cycle.
    pub stem: &'a [u16],
    /// The codes of the steps of a cycle that earns and has the ratio; at least one.
    pub cycle: &'a [u16],
    /// The units of time that the cycle takes.
    pub units: i64,
    /// What the cycle costs: as its steps add up, and not in lowest terms.
    pub cost: i64,
    /// What the cycle earns; its cost over this is p / q.
    pub reward: i64,
}

impl Planner {
    /// A planner with its three buffers.
    pub fn new() -> Planner {
        Planner {
            nodes: vec![0; LEAST_ENTRIES].into(),
            potentials: vec![0; LEAST_ENTRIES].into(),
            steps: vec![0; LEAST_ENTRIES].into(),
        }
    }

    /// Plans a sheet: questions 2 to 14 and 17, the buffers being long enough.
    ///
    /// ```
    /// let mut planner = planner::Planner::new();
    /// let refusal = planner.plan(&[1, 1, 1, 0, 4, 3]).unwrap_err();
    /// assert_eq!(refusal.to_string(), "refused 13: Is a cycle with reward above 0 reachable?");
    /// ```
    pub fn plan(&mut self, sheet: &[u8]) -> Result<Plan<'_>, Refusal> {
        let Planner { nodes, potentials, steps } = self;
        let mut numbers = PlanNumbers::default();
        Refusal::of(calls::plan(sheet, nodes, potentials, steps, &mut numbers))?;
        let PlanNumbers { p, q, n, s, m, units, cost, reward } = numbers;
        // n, s and m count entries of the buffers
        let (n, s, m) = (n as usize, s as usize, m as usize);
        let (stem, cycle) = steps[..s + m].split_at(s);
        let (nodes, potentials) = (&nodes[..n], &potentials[..n]);
        Ok(Plan { p, q, nodes, potentials, stem, cycle, units, cost, reward })
    }
}

impl Default for Planner {
    fn default() -> Planner {
        Planner::new()
    }
}
