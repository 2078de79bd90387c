//! Where each row of a schedule stands from left to right.

use crate::fraction::fraction;
use crate::schedule::{Row, Schedule};

/// What an edge takes at least from left to right, so that its name has room.
pub const SLOT: f64 = 20.0;
/// The longest cycle that is drawn twice, in rows and in units.
const TWICE: (usize, i64) = (24, 60);

/// A row as it is drawn: times in nths, places in pixels from the left end.
pub struct Stay<'a> {
    pub row: &'a Row,
    /// In the second pass of the cycle.
    pub again: bool,
    pub start: i64,
    pub end: i64,
    pub from: f64,
    pub to: f64,
    /// The wait is shorter than the slot of its edge.
    pub stretched: bool,
}

pub struct Timeline<'a> {
    pub nths: i64,
    pub stays: Vec<Stay<'a>>,
    /// How many stays stand before the cycle, and before its second pass.
    pub stem: usize,
    pub once: usize,
    /// Pixels to a unit, where nothing is stretched.
    pub scale: f64,
}

/// The shorter a schedule, the wider a unit. A long one has room for its rows.
fn scale(units: f64, rows: usize) -> f64 {
    if units <= 0.0 {
        return 48.0;
    }
    let most = (960.0 / units).max(48.0).min((160.0 / units).max(160.0));
    (f64::max(2400.0, 28.0 * rows as f64) / units).min(most)
}

fn twice(schedule: &Schedule, nths: i64) -> bool {
    let time: i64 = schedule.cycle.iter().fold(0, |time, row| time.saturating_add(row.wait));
    schedule.cycle.len() <= TWICE.0 && time > 0 && time / nths <= TWICE.1
}

impl<'a> Timeline<'a> {
    pub fn new(schedule: &'a Schedule) -> Timeline<'a> {
        let nths = schedule.nths.max(1);
        let (stem, once) = (schedule.stem.len(), schedule.stem.len() + schedule.cycle.len());
        let second = if twice(schedule, nths) { &schedule.cycle[..] } else { &[] };
        let rows: Vec<&Row> = schedule.rows().chain(second).collect();
        let units = rows.iter().map(|row| row.wait as f64).sum::<f64>() / nths as f64;
        let mut line = Timeline { nths, stays: Vec::new(), stem, once, scale: scale(units, rows.len()) };
        for (i, row) in rows.into_iter().enumerate() {
            line.push(row, i >= once);
        }
        line
    }

    fn push(&mut self, row: &'a Row, again: bool) {
        let (start, from) = self.stays.last().map_or((0, 0.0), |stay| (stay.end, stay.to));
        let wide = row.wait as f64 * self.scale / self.nths as f64;
        let (end, to) = (start.saturating_add(row.wait), from + wide.max(SLOT));
        self.stays.push(Stay { row, again, start, end, from, to, stretched: wide < SLOT });
    }

    pub fn width(&self) -> f64 {
        self.stays.last().map_or(SLOT, |stay| stay.to)
    }

    pub fn end(&self) -> i64 {
        self.stays.last().map_or(0, |stay| stay.end)
    }

    /// Where a stay begins; behind the last one it is the right end.
    pub fn begin(&self, stay: usize) -> f64 {
        self.stays.get(stay).map_or(self.width(), |stay| stay.from)
    }

    /// Where a time, in nths, stands; of a moment with several edges the left end.
    pub fn place(&self, time: f64) -> f64 {
        let i = self.stays.partition_point(|stay| (stay.end as f64) < time);
        match self.stays.get(i) {
            None => self.width(),
            Some(stay) if stay.end == stay.start => stay.from,
            Some(stay) => {
                let part = (time - stay.start as f64) / (stay.end as f64 - stay.start as f64);
                stay.from + part.clamp(0.0, 1.0) * (stay.to - stay.from)
            }
        }
    }

    /// A number of nths in units.
    pub fn units(&self, nths: i64) -> String {
        fraction(nths.into(), self.nths.into())
    }

    /// The same with the word.
    pub fn counted(&self, nths: i64) -> String {
        format!("{} unit{}", self.units(nths), if nths == self.nths { "" } else { "s" })
    }
}
