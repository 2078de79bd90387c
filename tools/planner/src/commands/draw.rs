//! `planner draw`.

use super::file;
use crate::input::{self, shown, Held};
use crate::output;
use crate::picture::{dot::automaton, graphviz::drawn};
use crate::plan::{planned, text::text, Buffers, Outcome};
use crate::stop::{Answer, Stop};
use crate::usage::Command;
use crate::words::Words;

/// The edges of the cycle; a sheet without a plan has none.
fn cycle(outcome: &Outcome) -> Vec<usize> {
    match outcome {
        Outcome::Planned(planned) => planned.schedule.cycle.iter().map(|row| row.edge).collect(),
        Outcome::Coarse { .. } | Outcome::Refused { .. } => Vec::new(),
    }
}

pub fn draw(command: &Command, words: &Words) -> Result<Answer, Stop> {
    let svg = words.output(command, "--svg")?;
    let held = input::sheet(file(words))?;
    let outcome = planned(&mut Buffers::default(), &held, None)?;
    let Held::Sheet(source) = &held else {
        return Ok(Answer::refused(text(&held, &outcome)));
    };
    let graph = automaton(&source.sheet, &cycle(&outcome));
    let Some(path) = svg else { return Ok(Answer::done(graph)) };
    output::write(path, &drawn(&graph)?)?;
    Ok(Answer::done(format!("drawing: {}\n", shown(path))))
}
