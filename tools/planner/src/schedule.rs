//! A schedule: a stem once, and a cycle repeating.

use crate::fraction::fraction;
use crate::sheet::Sheet;

/// Wait in a location, then take an edge. Times, costs and rewards are counted in nths.
#[derive(Clone, Debug, PartialEq, Eq)]
pub struct Row {
    /// When the wait begins, from the start of the schedule.
    pub at: i64,
    pub wait: i64,
    pub location: usize,
    pub edge: usize,
    /// Of the wait and the edge together.
    pub cost: i64,
    pub reward: i64,
    /// The clocks when the wait begins.
    pub clocks: Vec<i64>,
}

/// A row as it is shown. Behind the last wait of a run that breaks off there is no edge.
#[derive(Clone, Debug, PartialEq, Eq)]
pub struct Shown {
    pub at: i64,
    pub wait: i64,
    pub location: usize,
    pub edge: Option<usize>,
    pub cost: i64,
    pub reward: i64,
}

impl From<&Row> for Shown {
    fn from(row: &Row) -> Shown {
        let Row { at, wait, location, edge, cost, reward, .. } = *row;
        Shown { at, wait, location, edge: Some(edge), cost, reward }
    }
}

pub fn shown(rows: &[Row]) -> Vec<Shown> {
    rows.iter().map(Shown::from).collect()
}

#[derive(Clone, Debug, PartialEq, Eq)]
pub struct Schedule {
    /// How many nths make a unit.
    pub nths: i64,
    pub stem: Vec<Row>,
    pub cycle: Vec<Row>,
}

/// What a part of a schedule takes, costs and earns, in nths; what a walk does, in whole units.
#[derive(Clone, Copy, Debug, Default, PartialEq, Eq)]
pub struct Sum {
    pub time: i64,
    pub cost: i64,
    pub reward: i64,
}

impl Sum {
    /// The same in nths.
    pub fn times(self, nths: i64) -> Sum {
        Sum { time: nths * self.time, cost: nths * self.cost, reward: nths * self.reward }
    }

    /// In units, of which each has this number of nths.
    pub fn words(&self, nths: i64) -> String {
        let [time, cost, reward] = [self.time, self.cost, self.reward].map(|count| fraction(count.into(), nths.into()));
        format!("takes {time}, costs {cost}, earns {reward}")
    }
}

impl std::ops::Sub for Sum {
    type Output = Sum;

    fn sub(self, before: Sum) -> Sum {
        Sum { time: self.time - before.time, cost: self.cost - before.cost, reward: self.reward - before.reward }
    }
}

pub fn sum(rows: &[Row]) -> Sum {
    rows.iter().fold(Sum::default(), |sum, row| Sum {
        time: sum.time + row.wait,
        cost: sum.cost + row.cost,
        reward: sum.reward + row.reward,
    })
}

impl Schedule {
    pub fn rows(&self) -> impl Iterator<Item = &Row> {
        self.stem.iter().chain(&self.cycle)
    }
}

/// A wait, in nths, and the edge behind it.
#[derive(Clone, Copy, Debug, PartialEq, Eq)]
pub struct Visit {
    pub wait: i64,
    pub edge: usize,
}

/// The schedule that waits and takes edges so, from the start.
pub fn of_waits(sheet: &Sheet, nths: i64, stem: &[Visit], cycle: &[Visit]) -> Schedule {
    let (mut at, mut clocks) = (0, vec![0; sheet.clocks.len()]);
    let mut row = |visit: &Visit| {
        let edge = &sheet.edges[visit.edge];
        let location = &sheet.locations[edge.source];
        let price = |rate: i64, once: i64| visit.wait * rate + nths * once;
        let row = Row {
            at,
            wait: visit.wait,
            location: edge.source,
            edge: visit.edge,
            cost: price(location.cost.into(), edge.cost.into()),
            reward: price(location.reward.into(), edge.reward.into()),
            clocks: clocks.clone(),
        };
        at += visit.wait;
        for (j, clock) in clocks.iter_mut().enumerate() {
            *clock = if edge.reset >> j & 1 == 1 { 0 } else { *clock + visit.wait };
        }
        row
    };
    let stem = stem.iter().map(&mut row).collect();
    let cycle = cycle.iter().map(&mut row).collect();
    Schedule { nths, stem, cycle }
}
