//! The planner's tool: `planner --help` tells what it does.

use std::ffi::OsString;
use std::io::Write;
use std::process::ExitCode;
use tool::{commands, output};

/// Where standard error is closed, the status has to do.
fn tell(note: &str) {
    let _ = std::io::stderr().write_all(note.as_bytes());
}

fn main() -> ExitCode {
    let words: Vec<OsString> = std::env::args_os().skip(1).collect();
    let ended = commands::run(&words).and_then(|answer| {
        output::print(&answer.text)?;
        tell(&answer.note);
        Ok(answer.status)
    });
    ExitCode::from(ended.unwrap_or_else(|stop| {
        tell(&stop.message());
        stop.status()
    }))
}
