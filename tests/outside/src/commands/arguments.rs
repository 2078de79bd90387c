//! The words after the program's name.

use crate::planted::fault::{faults, Fault};

pub struct Arguments {
    pub seed: u64,
    pub count: Option<u64>,
    pub fault: Option<Fault>,
    /// Each kind of case that is promised has to have its cases.
    pub complete: bool,
    /// The words that are no options.
    pub words: Vec<String>,
}

fn number(option: &str, value: Option<String>) -> Result<u64, String> {
    let value = value.ok_or_else(|| format!("{option} needs a number"))?;
    value.parse().map_err(|_| format!("{option} needs a number, not {value}"))
}

fn fault(value: Option<String>) -> Result<Fault, String> {
    let faults = faults();
    let names: Vec<&str> = faults.iter().map(|(name, _)| *name).collect();
    let value = value.unwrap_or_default();
    let found = faults.iter().find(|(name, _)| *name == value);
    found.map(|(_, fault)| *fault).ok_or_else(|| format!("--fault is one of {}", names.join(", ")))
}

pub fn parse(mut words: impl Iterator<Item = String>) -> Result<Arguments, String> {
    let mut arguments =
        Arguments { seed: 1, count: None, fault: None, complete: false, words: Vec::new() };
    while let Some(word) = words.next() {
        match word.as_str() {
            "--seed" => arguments.seed = number("--seed", words.next())?,
            "--count" => arguments.count = Some(number("--count", words.next())?.max(1)),
            "--complete" => arguments.complete = true,
            "--fault" => arguments.fault = Some(fault(words.next())?),
            _ if word.starts_with("--") => return Err(format!("no such option: {word}")),
            _ => arguments.words.push(word),
        }
    }
    Ok(arguments)
}
