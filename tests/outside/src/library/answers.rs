//! The library's answers, with a planted fault between the library and the comparison if asked.

use crate::library::marked::{Buffers, PairBuffers};
use crate::planted::fault::Fault;
use crate::planted::plans::{accepted, refused};
use crate::planted::twice::Twice;
use crate::reading::explore::MOST_NODES;
use planner::calls::{self, PlanNumbers, StepNumbers, WorkNumbers};

pub struct Planner {
    pub fault: Option<Fault>,
}

/// What a plan answered, but for its lasso.
pub struct Answered {
    pub refusal: u8,
    pub numbers: PlanNumbers,
    pub nodes: Vec<u64>,
    pub potentials: Vec<i64>,
}

impl Planner {
    pub fn check(&self, sheet: &[u8]) -> u8 {
        match (self.fault, calls::check(sheet)) {
            (Some(Fault::Check), 8) => 9,
            (Some(Fault::Twice(twice)), refusal) => twice.checked(sheet, refusal),
            (Some(Fault::Edition(fault)), refusal) => fault.checked(sheet, refusal),
            (_, refusal) => refusal,
        }
    }

    pub fn step(&self, sheet: &[u8], node: u64, code: u16, numbers: &mut StepNumbers) -> u8 {
        let swapped = self.fault == Some(Fault::Step) && (code == 32 || code == 33);
        let code = if swapped { 65 - code } else { code };
        let node = match self.fault {
            Some(Fault::Layout(fault)) => fault.taken(sheet, node),
            _ => node,
        };
        let before = *numbers;
        let refusal = calls::step(sheet, node, code, numbers);
        match (self.fault, refusal) {
            (Some(Fault::Layout(fault)), 0) => fault.answered(sheet, numbers),
            (Some(Fault::Number), 15) => return 16,
            (Some(Fault::Twice(Twice::Step)), 17) => return 16,
            (Some(Fault::Stale), 2..) => numbers.cost = before.cost,
            (Some(Fault::Units(fault)), _) => fault.plant(code, refusal, &before, numbers),
            _ => {}
        }
        refusal
    }

    pub fn lasso_step(&self, sheet: &[u8], node: u64, code: u16, numbers: &mut StepNumbers) -> u8 {
        let before = *numbers;
        let refusal = calls::step(sheet, node, code, numbers);
        match self.fault {
            Some(Fault::Prices) => {
                (numbers.cost, numbers.reward) = (numbers.reward, numbers.cost);
            }
            Some(Fault::LassoUnits(fault)) => fault.plant(code, refusal, &before, numbers),
            _ => {}
        }
        refusal
    }

    pub fn plan(&self, sheet: &[u8], buffers: &mut Buffers, numbers: &mut PlanNumbers) -> u8 {
        let before = *numbers;
        let Buffers { nodes, potentials, steps } = buffers;
        let refusal = calls::plan(sheet, nodes, potentials, steps, numbers);
        match (self.fault, refusal) {
            (None, _) => refusal,
            (Some(Fault::Sums(fault)), _) => {
                fault.plant(sheet, refusal, steps, numbers);
                refusal
            }
            (Some(fault), 0) => accepted(fault, sheet, buffers, numbers),
            (Some(Fault::Unwritten), 2..) => {
                numbers.m = before.m;
                refusal
            }
            (Some(fault), _) => refused(fault, refusal, sheet, buffers, numbers),
        }
    }

    pub fn work(&self, sheet: &[u8], buffers: &mut PairBuffers, numbers: &mut WorkNumbers) -> u8 {
        let before = (buffers.clone(), *numbers);
        let refusal = calls::work(sheet, &mut buffers.waits, &mut buffers.edges, numbers);
        match self.fault {
            Some(Fault::Pairs(fault)) if refusal == 0 => {
                fault.plant(sheet, buffers, numbers);
                0
            }
            Some(Fault::Work(fault)) => fault.plant(sheet, refusal, before, buffers, numbers),
            Some(Fault::Question18(fault)) => fault.plant(sheet, refusal, numbers),
            _ => refusal,
        }
    }

    pub fn answer(&self, sheet: &[u8]) -> Answered {
        let mut buffers = Buffers {
            nodes: vec![0; MOST_NODES],
            potentials: vec![0; MOST_NODES],
            steps: vec![0; MOST_NODES],
        };
        let mut numbers = PlanNumbers::default();
        let refusal = self.plan(sheet, &mut buffers, &mut numbers);
        let Buffers { mut nodes, mut potentials, .. } = buffers;
        nodes.truncate(numbers.n as usize);
        potentials.truncate(numbers.n as usize);
        Answered { refusal, numbers, nodes, potentials }
    }
}
