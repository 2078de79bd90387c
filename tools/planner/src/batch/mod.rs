//! Many sheets on all cores, answered in the order in which they are given.

pub mod items;
pub mod line;
pub mod progress;
pub mod tally;
pub mod window;

use crate::output::{standard, unwritten};
use crate::plan::Buffers;
use crate::stop::Stop;
use items::Items;
use line::{line, Line};
use progress::Progress;
use std::collections::BTreeMap;
use std::io::Write;
use std::sync::mpsc::{channel, Receiver, Sender};
use std::sync::Arc;
use tally::Tally;
use window::Window;

/// A plan takes less than half of this.
const STACK: usize = 2 << 20;

/// Plans every item and prints a line for each. What fails is told in its line, and does not stop the others.
pub fn batch(items: Items, jobs: usize) -> Result<Tally, Stop> {
    let progress = Progress::new(items.total());
    let window = Arc::new(Window::new(items, 64 * jobs));
    let (done, answers) = channel();
    for _ in 0..jobs {
        let (done, window) = (done.clone(), window.clone());
        let started = std::thread::Builder::new().stack_size(STACK).spawn(move || work(&window, &done));
        started.map_err(|error| Stop::Stream(format!("a thread cannot be started: {error}")))?;
    }
    drop(done);
    let printed = print(answers, &window, &progress).inspect_err(|_| window.close());
    progress.clear();
    printed
}

/// Where nobody listens any more, there is nothing more to do. A thread that still waits for standard input ends with the tool.
fn work(window: &Window, done: &Sender<(usize, Line)>) {
    let mut buffers = Buffers::default();
    while let Some((place, item)) = window.take() {
        if done.send((place, line(&mut buffers, item))).is_err() {
            return;
        }
    }
}

/// Prints the lines in their order, whatever is finished first.
fn print(answers: Receiver<(usize, Line)>, window: &Window, progress: &Progress) -> Result<Tally, Stop> {
    let (mut tally, mut waiting, mut next) = (Tally::default(), BTreeMap::new(), 0);
    let mut out = std::io::BufWriter::new(standard()?);
    for (place, found) in answers {
        waiting.insert(place, found);
        progress.make_way();
        while let Some(found) = waiting.remove(&next) {
            tally.add(&found);
            writeln!(out, "{}", found.json).map_err(unwritten)?;
            next += 1;
        }
        // a reader that waits for lines sees them at once
        out.flush().map_err(unwritten)?;
        window.printed(next);
        progress.show(next);
    }
    Ok(tally)
}
