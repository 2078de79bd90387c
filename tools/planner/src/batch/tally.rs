//! A count by answer.

use super::line::Line;
use std::collections::BTreeMap;
use std::time::Duration;

#[derive(Default)]
pub struct Tally {
    answers: BTreeMap<String, usize>,
    count: usize,
    /// The greatest exit status of a line.
    pub status: u8,
}

impl Tally {
    pub fn add(&mut self, line: &Line) {
        *self.answers.entry(line.answer.clone()).or_default() += 1;
        self.count += 1;
        self.status = self.status.max(line.status);
    }

    pub fn words(&self, took: Duration) -> String {
        let answers: Vec<String> = self.answers.iter().map(|(answer, count)| format!("{count} {answer}")).collect();
        let seconds = took.as_secs_f64();
        let rate = self.count as f64 / seconds.max(1e-6);
        let sheets = if self.count == 1 { "sheet" } else { "sheets" };
        match self.count {
            0 => "no sheets".to_string(),
            count => format!("{count} {sheets}: {}; {seconds:.1} s, {rate:.0} a second", answers.join(", ")),
        }
    }
}
