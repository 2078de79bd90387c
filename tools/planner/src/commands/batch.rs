//! `planner batch`.

use crate::batch::{batch as planned, items::Items};
use crate::stop::{Answer, Stop};
use crate::usage::Command;
use crate::words::Words;
use std::time::Instant;

pub fn batch(command: &Command, words: &Words) -> Result<Answer, Stop> {
    let cores = || std::thread::available_parallelism().map_or(1, |cores| cores.get().min(256));
    let jobs = words.number(command, "--jobs", 1, 256)?.map_or_else(cores, |jobs| jobs as usize);
    let began = Instant::now();
    let tally = planned(Items::of(&words.files), jobs)?;
    let note = tally.words(began.elapsed()) + "\n";
    Ok(Answer { text: Vec::new(), note, status: tally.status })
}
