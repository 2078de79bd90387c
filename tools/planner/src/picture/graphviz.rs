//! The picture of the automaton by `dot` of Graphviz.

use crate::stop::Stop;
use std::io::{ErrorKind, Write};
use std::process::{Command, Output, Stdio};

const PROGRAM: &str = "dot";

/// The SVG that `dot` makes of a text in its language.
pub fn drawn(dot_text: &str) -> Result<Vec<u8>, Stop> {
    drawn_by(PROGRAM, dot_text)
}

fn drawn_by(program: &str, text: &str) -> Result<Vec<u8>, Stop> {
    let output = output(program, text).map_err(|error| match error.kind() {
        ErrorKind::NotFound => Stop::Stream(format!(
            "`{program}` of Graphviz is not installed: no program of that name on the PATH; expected one to draw with"
        )),
        _ => Stop::Stream(format!("`{program}` of Graphviz cannot be run: {error}")),
    })?;
    if output.status.success() {
        return Ok(output.stdout);
    }
    let words = String::from_utf8_lossy(&output.stderr);
    let reason = if words.trim().is_empty() { output.status.to_string() } else { words.trim().to_string() };
    Err(Stop::Stream(format!("`{program}` of Graphviz fails: {reason}")))
}

/// A thread writes the text while the answer is read, so that neither side waits for the other for ever.
fn output(program: &str, text: &str) -> std::io::Result<Output> {
    let mut child = Command::new(program).arg("-Tsvg").stdin(Stdio::piped()).stdout(Stdio::piped()).stderr(Stdio::piped()).spawn()?;
    let stdin = child.stdin.take();
    std::thread::scope(|scope| {
        // A program that stops reading early tells why by its status.
        let write = move || stdin.map(|mut stdin| stdin.write_all(text.as_bytes()));
        std::thread::Builder::new().spawn_scoped(scope, write)?;
        child.wait_with_output()
    })
}

#[cfg(test)]
mod tests {
    use super::*;

    #[test]
    fn a_missing_program_is_told() {
        let stop = drawn_by("no-such-dot", "digraph {}").unwrap_err();
        assert_eq!(stop.status(), 4);
        assert!(stop.message().starts_with("`no-such-dot` of Graphviz is not installed: "));
    }

    #[test]
    fn a_program_that_fails_is_told_however_long_the_text() {
        let stop = drawn_by("false", &"digraph {}\n".repeat(100_000)).unwrap_err();
        assert_eq!(stop.status(), 4);
        assert!(stop.message().starts_with("`false` of Graphviz fails: "));
    }

    #[test]
    fn what_the_program_writes_is_the_picture() {
        assert_eq!(drawn_by("echo", "digraph {}"), Ok(b"-Tsvg\n".to_vec()));
    }
}
