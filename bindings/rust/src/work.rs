//! Work plans, in buffers that are kept from one to the next.

use crate::calls::{self, WorkNumbers};
use crate::{Refusal, LEAST_PAIRS};

/// The buffers that work plans are written to. One planner can plan any number of sheets.
#[derive(Clone)]
pub struct WorkPlanner {
    waits: Box<[u16]>,
    edges: Box<[u16]>,
}

/// Pairs to be worked off in their order: wait a given number of whole units, then take the edge.
#[derive(Clone, Copy, Debug, PartialEq, Eq)]
pub struct Pairs<'a> {
    /// The whole units to wait.
    pub waits: &'a [u16],
    /// The numbers of the edges, as many.
    pub edges: &'a [u16],
}

/// The work plan of an accepted sheet. Taken from the start, the stem and then the cycle keep every
/// bound and every guard, and both end with the same edge.
#[derive(Clone, Copy, Debug, PartialEq, Eq)]
pub struct WorkPlan<'a> {
    /// What leads from the start to the cycle; at least one pair.
    pub stem: Pairs<'a>,
    /// What comes back to the same location and the same clocks, earns, and has exactly the ratio of
    /// the sheet; at least one pair.
    pub cycle: Pairs<'a>,
}

impl<'a> Pairs<'a> {
    /// Each wait with its edge.
    pub fn iter(self) -> impl Iterator<Item = (u16, u16)> + 'a {
        self.waits.iter().copied().zip(self.edges.iter().copied())
    }
}

impl WorkPlanner {
    /// A planner with its two buffers.
    pub fn new() -> WorkPlanner {
        WorkPlanner { waits: vec![0; LEAST_PAIRS].into(), edges: vec![0; LEAST_PAIRS].into() }
    }

    /// Plans a sheet in whole units: questions 2 to 14, 17 and 18, the buffers being long enough.
    ///
    /// ```
    /// let bench = [1, 1, 1, 1, 5, 1, 0, 5, 15, 0, 0, 0, 5, 0, 2, 0, 1, 2];
    /// let mut planner = planner::WorkPlanner::new();
    /// let plan = planner.plan(&bench)?;
    /// assert_eq!(plan.stem.iter().collect::<Vec<_>>(), [(1, 0)]);
    /// assert_eq!(plan.cycle.iter().collect::<Vec<_>>(), [(1, 0)]);
    /// # Ok::<(), planner::Refusal>(())
    /// ```
    pub fn plan(&mut self, sheet: &[u8]) -> Result<WorkPlan<'_>, Refusal> {
        let WorkPlanner { waits, edges } = self;
        let mut numbers = WorkNumbers::default();
        Refusal::of(calls::work(sheet, waits, edges, &mut numbers))?;
        // stem and cycle count entries of the buffers
        let (stem, all) = (numbers.stem as usize, (numbers.stem + numbers.cycle) as usize);
        Ok(WorkPlan {
            stem: Pairs { waits: &waits[..stem], edges: &edges[..stem] },
            cycle: Pairs { waits: &waits[stem..all], edges: &edges[stem..all] },
        })
    }
}

impl Default for WorkPlanner {
    fn default() -> WorkPlanner {
        WorkPlanner::new()
    }
}
