//! `planner plan`.

use super::file;
use crate::certificate::written;
use crate::input::{self, shown, Held};
use crate::output;
use crate::picture::chart;
use crate::plan::{json::json, planned_in_full, text::text, Buffers, Outcome, Planned, Standing};
use crate::run::FINEST;
use crate::stop::{Answer, Stop};
use crate::usage::Command;
use crate::words::Words;
use std::ffi::OsStr;

/// A file that is asked for, and what it is called where it is told that it is written.
struct Wanted<'a> {
    path: &'a OsStr,
    what: &'static str,
    text: String,
}

fn title(held: &Held, planned: &Planned) -> String {
    let (p, q) = (planned.plan.certificate.p, planned.plan.certificate.q);
    let what = match planned.standing {
        Standing::Work | Standing::Exact | Standing::Inside => "a schedule that attains the least ratio",
        Standing::Near => "a run near the least ratio",
        Standing::Corners(..) => "corner points, which are no run, with the least ratio",
    };
    format!("{}: {what} {p}/{q}", held.name())
}

pub fn plan(command: &Command, words: &Words) -> Result<Answer, Stop> {
    let finer = words.number(command, "--nths", 1, FINEST)?;
    let (svg, certificate) = (words.output(command, "--svg")?, words.output(command, "--certificate")?);
    words.apart(command, "--svg", "--certificate")?;
    let held = input::sheet(file(words))?;
    let outcome = planned_in_full(&mut Buffers::default(), &held, finer)?;
    let mut answer = match words.value("--json") {
        Some(_) => json(&held, &outcome) + "\n",
        None => text(&held, &outcome),
    };
    let (Outcome::Planned(planned), Some(sheet)) = (&outcome, held.sheet()) else {
        let unwritten = svg.into_iter().chain(certificate).map(|path| format!("{}: not written\n", shown(path))).collect();
        return Ok(Answer { note: unwritten, ..Answer::refused(answer) });
    };
    let chart =
        svg.map(|path| Wanted { path, what: "chart", text: chart(sheet, &title(&held, planned), &planned.schedule, planned.cycle()) });
    let certificate = certificate.map(|path| Wanted { path, what: "certificate", text: written(&planned.plan.certificate) });
    for wanted in chart.into_iter().chain(certificate) {
        output::write(wanted.path, wanted.text.as_bytes())?;
        if words.value("--json").is_none() {
            answer += &format!("\n{}: {}\n", wanted.what, shown(wanted.path));
        }
    }
    Ok(Answer::done(answer))
}
