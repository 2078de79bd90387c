//! A bar on standard error, where that is a terminal.

use std::cell::Cell;
use std::io::{IsTerminal, Write};
use std::time::{Duration, Instant};

const WIDTH: usize = 30;

pub struct Progress {
    total: Option<usize>,
    began: Instant,
    shown: Cell<Option<Instant>>,
    wanted: bool,
    /// The answers go to a terminal too, so that the bar has to make way for each line.
    shared: bool,
}

/// How far it is: a bar where the total is known, the rate, and the time that is left.
pub fn words(done: usize, total: Option<usize>, took: Duration) -> String {
    let rate = done as f64 / took.as_secs_f64().max(1e-6);
    match total {
        None => format!("{done}, {rate:.0} a second"),
        Some(total) => {
            let full = WIDTH * done / total.max(1);
            let bar = format!("[{}{}] {done} of {total}", "#".repeat(full), " ".repeat(WIDTH - full.min(WIDTH)));
            match total.saturating_sub(done) as f64 / rate {
                left if left.is_finite() => format!("{bar}, {rate:.0} a second, {left:.0} s left"),
                _ => bar,
            }
        }
    }
}

impl Progress {
    pub fn new(total: Option<usize>) -> Progress {
        let (wanted, shared) = (std::io::stderr().is_terminal(), std::io::stdout().is_terminal());
        Progress { total, began: Instant::now(), shown: Cell::new(None), wanted, shared }
    }

    /// At most ten times a second, or after each line that it made way for.
    pub fn show(&self, done: usize) {
        let due = self.shared || self.shown.get().is_none_or(|last| last.elapsed() > Duration::from_millis(100));
        if self.wanted && due {
            self.shown.set(Some(Instant::now()));
            let _ = write!(std::io::stderr(), "\r\x1b[K{}", words(done, self.total, self.began.elapsed()));
        }
    }

    /// Makes way for a line.
    pub fn make_way(&self) {
        if self.shared {
            self.clear();
        }
    }

    pub fn clear(&self) {
        if self.wanted {
            let _ = write!(std::io::stderr(), "\r\x1b[K");
        }
    }
}

#[cfg(test)]
mod tests {
    use super::*;

    #[test]
    fn it_tells_how_far_it_is() {
        let bar = words(50, Some(200), Duration::from_secs(2));
        assert_eq!(bar, "[#######                       ] 50 of 200, 25 a second, 6 s left");
        assert_eq!(words(0, Some(200), Duration::ZERO), "[                              ] 0 of 200");
        assert_eq!(words(50, None, Duration::from_secs(2)), "50, 25 a second");
    }
}
