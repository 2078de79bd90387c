//! Plans that are refused, with their reasons.

use super::agreed::agreed;
use super::corner::corners;
use super::{Gain, NoRun, Outcome};
use crate::reasons::{searched, words, Why};
use crate::run::{of_schedule, replay};
use crate::schedule::Schedule;
use crate::sheet::{refusal::Refusal, Sheet};
use crate::source::Source;
use crate::stop::Stop;

/// The tool's own reading of bytes that are no sheet has to come to the library's number.
pub fn no_sheet(bytes: &[u8], found: &Refusal) -> Result<Outcome, Stop> {
    match planner::check(bytes) {
        Err(refusal) if refusal.number() == found.question => {
            Ok(Outcome::Refused { refusal, why: words(&Sheet::default(), &Why::Sheet(found.clone())), gain: None })
        }
        answer => Err(Stop::Difference(format!("the library answers {answer:?} to the sheet, and the tool {found}"))),
    }
}

/// Of a sheet that the tool reads the library can refuse the plan only, for a reason that the tool finds too.
pub fn no_plan(source: &Source, refusal: planner::Refusal) -> Result<Outcome, Stop> {
    let Source { sheet, bytes, .. } = source;
    if !(12..=14).contains(&refusal.number()) {
        return Err(Stop::Difference(format!("the library answers {refusal}, and the tool reads the sheet")));
    }
    let why = searched(sheet, bytes, refusal.number())?;
    let gain = match &why {
        Why::Gain { stem, cycle } => Some(replayed_gain(sheet, corners(sheet, bytes, stem, cycle)?.schedule)?),
        _ => None,
    };
    Ok(Outcome::Refused { refusal, why: words(sheet, &why), gain })
}

/// The loop is replayed, and where it is no run, with every bound and guard taken as one that may be reached.
fn replayed_gain(sheet: &Sheet, schedule: Schedule) -> Result<Gain, Stop> {
    let no_run = replay(sheet, &of_schedule(&schedule)).err().map(NoRun::from);
    let around = agreed(&sheet.closed(), &schedule)?;
    if around.sum.cost >= 0 || around.sum.reward != 0 {
        return Err(Stop::Difference(format!("the replay of a loop that makes money has {around}")));
    }
    Ok(Gain { schedule, no_run })
}
