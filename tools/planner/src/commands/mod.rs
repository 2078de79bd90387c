//! The commands, a file each.

mod batch;
mod check;
mod draw;
mod forms;
mod plan;
mod replay;
mod verify;

use crate::input::{self, shown, Held};
use crate::plan::{planned, text::text, Buffers};
use crate::source::Source;
use crate::stop::{Answer, Stop};
use crate::usage::{self, Command, COMMANDS};
use crate::words::Words;
use std::ffi::{OsStr, OsString};

/// Does what the words say.
pub fn run(words: &[OsString]) -> Result<Answer, Stop> {
    let Some(first) = words.first() else {
        return Err(Stop::Usage(usage::all().trim_end().to_string()));
    };
    match (first.to_str(), words.len()) {
        (Some("--help" | "-h"), _) => return Ok(Answer::done(usage::all())),
        (Some("--version"), 1) => return Ok(Answer::done(usage::version())),
        _ => {}
    }
    let Some(command) = COMMANDS.iter().find(|command| first == command.name) else {
        let names = COMMANDS.map(|command| command.name).join(", ");
        return Err(Stop::Usage(format!("planner: '{}' is no command; expected one of: {names}", shown(first))));
    };
    let found = Words::of(command, &words[1..])?;
    if found.help {
        return Ok(Answer::done(usage::one(command)));
    }
    one(command, &found)
}

fn one(command: &Command, words: &Words) -> Result<Answer, Stop> {
    match command.name {
        "plan" => plan::plan(command, words),
        "check" => check::check(words),
        "verify" => verify::verify(words),
        "replay" => replay::replay(words),
        "draw" => draw::draw(command, words),
        "batch" => batch::batch(command, words),
        _ => forms::in_other_form(command, words),
    }
}

/// The one file of a command, or standard input.
fn file(words: &Words) -> &OsStr {
    words.files.first().map_or(OsStr::new("-"), OsString::as_os_str)
}

/// The sheet of a file, or the answer to bytes that are none.
fn sheet(path: &OsStr) -> Result<Result<Source, Answer>, Stop> {
    let held = input::sheet(path)?;
    match held {
        Held::Sheet(source) => Ok(Ok(source)),
        Held::Refused { .. } => {
            let outcome = planned(&mut Buffers::default(), &held, None)?;
            Ok(Err(Answer::refused(text(&held, &outcome))))
        }
    }
}
