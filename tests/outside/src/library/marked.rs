//! What is lent to the library, with random entries, so that what is written and what is not can
//! be seen.

use crate::random::Random;
use planner::calls::{PlanNumbers, StepNumbers, WorkNumbers};

/// Fewer entries than are enough, often one fewer or none.
pub fn short_length(random: &mut Random, enough: usize) -> usize {
    match random.below(3) {
        0 => enough - 1,
        1 => 0,
        _ => random.below(enough),
    }
}

/// The three buffers lent to a plan.
#[derive(Clone, PartialEq)]
pub struct Buffers {
    pub nodes: Vec<u64>,
    pub potentials: Vec<i64>,
    pub steps: Vec<u16>,
}

pub fn buffers(random: &mut Random, lengths: [usize; 3]) -> Buffers {
    Buffers {
        nodes: (0..lengths[0]).map(|_| random.next() | 1).collect(),
        potentials: (0..lengths[1]).map(|_| random.next() as i64 | 1).collect(),
        steps: (0..lengths[2]).map(|_| random.next() as u16 | 1).collect(),
    }
}

/// The two buffers lent to a work plan.
#[derive(Clone, PartialEq)]
pub struct PairBuffers {
    pub waits: Vec<u16>,
    pub edges: Vec<u16>,
}

pub fn pair_buffers(random: &mut Random, lengths: [usize; 2]) -> PairBuffers {
    let [waits, edges] =
        lengths.map(|length| (0..length).map(|_| random.next() as u16 | 1).collect());
    PairBuffers { waits, edges }
}

pub fn work_numbers(random: &mut Random) -> WorkNumbers {
    let [stem, cycle] = [(); 2].map(|_| random.next() as i64 | 1);
    WorkNumbers { stem, cycle }
}

pub fn plan_numbers(random: &mut Random) -> PlanNumbers {
    let [p, q, n, s, m, units, cost, reward] = [(); 8].map(|_| random.next() as i64 | 1);
    PlanNumbers { p, q, n, s, m, units, cost, reward }
}

pub fn step_numbers(random: &mut Random) -> StepNumbers {
    let [cost, reward, units] = [(); 3].map(|_| random.next() as i64 | 1);
    StepNumbers { number: random.next() | 1, cost, reward, units }
}
