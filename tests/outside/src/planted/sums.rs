//! Faults planted in the units, the cost and the reward that a plan tells of its cycle.

use crate::reading::region::MOVE;
use planner::calls::PlanNumbers;
use planner::Step;

#[derive(Clone, Copy, Debug, PartialEq)]
pub enum Figure {
    Units,
    Cost,
    Reward,
}

#[derive(Clone, Copy, Debug, PartialEq)]
pub enum SumFault {
    /// That of the stem is counted in.
    Stem(Figure),
    /// It is higher by 1.
    More(Figure),
    /// It is 1 in a refused plan.
    Refused(Figure),
    /// It is 1 where a buffer is short.
    Short(Figure),
    /// Moves are counted as units.
    Moves,
    /// The units are 1 where the cycle takes several.
    AtMostOne,
    /// The units are 1 where the cycle takes none.
    AtLeastOne,
    /// The units are counted in a byte.
    Byte,
    /// The cost is p, that of the ratio in lowest terms.
    LowestCost,
    /// The reward is q.
    LowestReward,
    /// The cost has lost its sign.
    Unsigned,
    /// The cost is told for the reward, and the reward for the cost.
    Exchanged,
}

pub const SUM_FAULTS: [(&str, SumFault); 20] = [
    ("units-stem", SumFault::Stem(Figure::Units)),
    ("units-more", SumFault::More(Figure::Units)),
    ("units-refused", SumFault::Refused(Figure::Units)),
    ("units-short", SumFault::Short(Figure::Units)),
    ("units-moves", SumFault::Moves),
    ("units-at-most-one", SumFault::AtMostOne),
    ("units-at-least-one", SumFault::AtLeastOne),
    ("units-byte", SumFault::Byte),
    ("cost-stem", SumFault::Stem(Figure::Cost)),
    ("cost-more", SumFault::More(Figure::Cost)),
    ("cost-refused", SumFault::Refused(Figure::Cost)),
    ("cost-short", SumFault::Short(Figure::Cost)),
    ("cost-lowest", SumFault::LowestCost),
    ("cost-unsigned", SumFault::Unsigned),
    ("reward-stem", SumFault::Stem(Figure::Reward)),
    ("reward-more", SumFault::More(Figure::Reward)),
    ("reward-refused", SumFault::Refused(Figure::Reward)),
    ("reward-short", SumFault::Short(Figure::Reward)),
    ("reward-lowest", SumFault::LowestReward),
    ("cost-and-reward", SumFault::Exchanged),
];

impl Figure {
    fn of_step(self, step: &Step) -> i64 {
        match self {
            Figure::Units => step.units,
            Figure::Cost => step.cost,
            Figure::Reward => step.reward,
        }
    }

    fn of_plan(self, numbers: &mut PlanNumbers) -> &mut i64 {
        match self {
            Figure::Units => &mut numbers.units,
            Figure::Cost => &mut numbers.cost,
            Figure::Reward => &mut numbers.reward,
        }
    }

    /// Over the steps from the start.
    fn along(self, sheet: &[u8], stem: &[u16]) -> i64 {
        let mut node = 0;
        let steps = stem.iter().map(|&code| {
            let step = planner::step(sheet, node, code).expect("the stem is a walk");
            node = step.node;
            self.of_step(&step)
        });
        steps.sum()
    }
}

impl SumFault {
    /// Changes the numbers of a plan that is answered `refusal`.
    pub fn plant(self, sheet: &[u8], refusal: u8, steps: &[u16], numbers: &mut PlanNumbers) {
        match (self, refusal) {
            (SumFault::Refused(figure), 2..) | (SumFault::Short(figure), 1) => {
                *figure.of_plan(numbers) = 1
            }
            (_, 0) => self.plant_accepted(sheet, steps, numbers),
            _ => {}
        }
    }

    fn plant_accepted(self, sheet: &[u8], steps: &[u16], numbers: &mut PlanNumbers) {
        let (stem, length) = (numbers.s as usize, (numbers.s + numbers.m) as usize);
        let moves = || steps[stem..length].iter().filter(|&&code| code == MOVE).count() as i64;
        match self {
            SumFault::Stem(figure) => {
                *figure.of_plan(numbers) += figure.along(sheet, &steps[..stem])
            }
            SumFault::More(figure) => *figure.of_plan(numbers) += 1,
            SumFault::Moves => numbers.units += moves(),
            SumFault::AtMostOne => numbers.units = numbers.units.min(1),
            SumFault::AtLeastOne => numbers.units = numbers.units.max(1),
            SumFault::Byte => numbers.units %= 256,
            SumFault::LowestCost => numbers.cost = numbers.p,
            SumFault::LowestReward => numbers.reward = numbers.q,
            SumFault::Unsigned => numbers.cost = numbers.cost.abs(),
            SumFault::Exchanged => {
                (numbers.cost, numbers.reward) = (numbers.reward, numbers.cost);
            }
            _ => {}
        }
    }
}
