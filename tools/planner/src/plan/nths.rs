//! Runs in nths along the regions of a lasso. When its edges are taken is a matter of difference constraints.

use super::constraints::{solved, Constraint};
use super::corner::Corners;
use crate::nodes::{node, Node};
use crate::run::FINEST;
use crate::schedule::{of_waits, sum, Row, Schedule, Visit};
use crate::sheet::Sheet;

/// Place 0 is the start, and place i + 1 edge i.
struct Times {
    /// By the corner points, in units.
    times: Vec<i64>,
    /// What the cycle takes by them.
    period: i64,
    constraints: Vec<Constraint>,
}

impl Times {
    /// Time `to` less time `from` is at most `units`, and `turns` times what the cycle takes, less `room` nths.
    fn at_most(&mut self, to: usize, from: usize, units: i64, turns: i64, room: i64) {
        let slack = units + turns * self.period - self.times[to] + self.times[from];
        self.constraints.push(Constraint { to, from, slack, turns, room });
    }

    fn equal(&mut self, to: usize, from: usize, units: i64, turns: i64) {
        self.at_most(to, from, units, turns, 0);
        self.at_most(from, to, -units, -turns, 0);
    }

    /// At this time each clock is where the region has it. A clock counts from the time of its last reset. The order of the fractions of
    /// two clocks follows: what they differ by was kept when the later one was reset.
    fn in_region(&mut self, at: usize, node: &Node, resets: &[usize]) {
        for (j, reset) in resets.iter().enumerate() {
            if node.class[j] == 0 {
                self.equal(at, *reset, node.whole[j], 0);
            } else {
                self.at_most(at, *reset, node.whole[j] + 1, 0, 1);
                self.at_most(*reset, at, -node.whole[j], 0, 1);
            }
        }
    }
}

fn constraints(sheet: &Sheet, corners: &Corners) -> Times {
    let Corners { schedule, nodes } = corners;
    let rows: Vec<&Row> = schedule.rows().collect();
    let times = std::iter::once(0).chain(rows.iter().map(|row| row.at + row.wait)).collect();
    let mut found = Times { times, period: sum(&schedule.cycle).time, constraints: Vec::new() };
    let mut resets = vec![0; sheet.clocks.len()];
    let mut begun = resets.clone();
    for (i, (row, number)) in rows.iter().zip(nodes).enumerate() {
        if i == schedule.stem.len() {
            begun = resets.clone();
        }
        found.at_most(i, i + 1, 0, 0, 0);
        found.in_region(i + 1, &node(sheet.edition, *number), &resets);
        for (j, reset) in resets.iter_mut().enumerate() {
            if sheet.edges[row.edge].reset >> j & 1 == 1 {
                *reset = i + 1;
            }
        }
    }
    // one round later each clock was last reset so much later
    found.equal(rows.len(), schedule.stem.len(), 0, 1);
    for (reset, before) in resets.into_iter().zip(begun) {
        found.equal(reset, before, 0, 1);
    }
    found
}

fn scheduled(sheet: &Sheet, corners: &Corners, times: &Times, n: i64, later: &[i64]) -> Schedule {
    let at = |place: usize| n * times.times[place] + later[place];
    let visits: Vec<Visit> =
        corners.schedule.rows().enumerate().map(|(i, row)| Visit { wait: at(i + 1) - at(i), edge: row.edge }).collect();
    let (stem, cycle) = visits.split_at(corners.schedule.stem.len());
    of_waits(sheet, n, stem, cycle)
}

/// The schedule for this n, where there are such times.
fn timed(sheet: &Sheet, corners: &Corners, times: &Times, n: i64) -> Option<Schedule> {
    let later = solved(&times.constraints, times.times.len(), n)?;
    Some(scheduled(sheet, corners, times, n, &later))
}

/// A schedule in nths that is inside the lasso's region at each edge, and whose cycle earns, for this n. Where the cycle earns by waiting
/// alone and no wait is left, one of the waits that earn is made an nth at least.
pub fn inside(sheet: &Sheet, corners: &Corners, n: i64) -> Option<Schedule> {
    let mut times = constraints(sheet, corners);
    let found = timed(sheet, corners, &times, n)?;
    if sum(&found.cycle).reward > 0 {
        return Some(found);
    }
    let rows = corners.schedule.rows().enumerate().skip(corners.schedule.stem.len());
    let mut earning = rows.filter(|(_, row)| sheet.locations[row.location].reward > 0);
    earning.find_map(|(i, _)| {
        times.at_most(i, i + 1, 0, 0, 1);
        let found = timed(sheet, corners, &times, n);
        times.constraints.pop();
        found
    })
}

/// The least n for which there is such a schedule, up to the finest. Corner points keep every constraint that is not strict, so that no
/// slack is below 0: times that serve for n serve for each greater n.
pub fn least(sheet: &Sheet, corners: &Corners) -> Option<i64> {
    let serves = |n: i64| inside(sheet, corners, n).is_some();
    if !serves(FINEST) {
        return None;
    }
    let (mut short, mut enough) = (0, FINEST);
    while short + 1 < enough {
        let middle = (short + enough) / 2;
        if serves(middle) {
            enough = middle;
        } else {
            short = middle;
        }
    }
    Some(enough)
}
