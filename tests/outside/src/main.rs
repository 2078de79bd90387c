//! Compares the proved planner with an implementation of its own, written from the specification.

mod commands;
mod coverage;
mod graphs;
mod hexadecimal;
mod judges;
mod library;
mod planted;
mod random;
mod reading;
mod runs;
mod sha256;
mod sheets;

use std::process::ExitCode;

const USAGE: &str = "compare COMMAND [--seed N] [--count N] [--complete] [--fault NAME]
  sheets               random sheets through the library and the implementation here
  cases FOLDER         the frozen cases
  program FILE FOLDER  the printing program on the frozen plans
  nths                 runs in nths and their loops against the plans of small sheets
  graphs [FOLDER]      the graphs of accepted sheets, for the solvers";

fn run() -> Result<(), String> {
    let mut words = std::env::args().skip(1);
    let command = words.next().unwrap_or_default();
    let arguments = commands::arguments::parse(words)?;
    match command.as_str() {
        "sheets" => commands::sheets::run(&arguments),
        "cases" => commands::cases::run(&arguments),
        "program" => commands::program::run(&arguments),
        "nths" => commands::nths::run(&arguments),
        "graphs" => commands::graphs::run(&arguments),
        _ => Err(USAGE.to_string()),
    }
}

fn main() -> ExitCode {
    match run() {
        Ok(()) => ExitCode::SUCCESS,
        Err(message) => {
            eprintln!("FAILED {message}");
            ExitCode::FAILURE
        }
    }
}
