//! Sheets with a schedule each, short and long, and some that are hard to draw.

use tool::run::{read::read, Member};
use tool::schedule::{Row, Schedule};
use tool::sheet::Sheet;
use tool::text::parse;

pub const PRODUCTION: &str = include_str!("../../../../sheets/production.txt");
pub const PRODUCTION_RUN: &str = include_str!("../../../../sheets/runs/production-least.txt");
pub const LOADER: &str = include_str!("../../../../sheets/loader.txt");
pub const OVENS: &str = include_str!("../../../../sheets/ovens.txt");
pub const OVENS_RUN: &str = include_str!("../../../../sheets/runs/ovens-least.txt");
pub const BEACON: &str = include_str!("../../../../sheets/beacon.txt");
pub const BEACON_RUN: &str = include_str!("../../../../sheets/runs/beacon-in-tenths.txt");
pub const BENCH: &str = include_str!("../../../../sheets/bench.txt");
pub const ROUND: &str = "delay 2\nedge start-a\ndelay 1\nedge finish-a\nedge start-b\ndelay 2\nedge finish-b\n\
                     edge start-a\ndelay 1\nedge finish-a\n";

/// The rows of a run, without a look at bounds and guards.
pub fn schedule(sheet: &Sheet, run: &str) -> Schedule {
    let run = read(sheet, run).unwrap().run;
    let mut found = Schedule { nths: run.nths, stem: Vec::new(), cycle: Vec::new() };
    let (mut at, mut wait, mut location, mut clocks) = (0, 0, 0, vec![0; sheet.clocks.len()]);
    for (place, member) in run.members.iter().enumerate() {
        let edge = match *member {
            Member::Delay(nths) => {
                wait += nths;
                continue;
            }
            Member::Edge(edge) => edge,
        };
        let (rates, prices) = (&sheet.locations[location], &sheet.edges[edge]);
        let cost = wait * i64::from(rates.cost) + run.nths * i64::from(prices.cost);
        let reward = wait * i64::from(rates.reward) + run.nths * i64::from(prices.reward);
        let row = Row { at, wait, location, edge, cost, reward, clocks: clocks.clone() };
        if place < run.before { &mut found.stem } else { &mut found.cycle }.push(row);
        for (j, clock) in clocks.iter_mut().enumerate() {
            *clock = if prices.reset >> j & 1 == 1 { 0 } else { *clock + wait };
        }
        (at, wait, location) = (at + wait, 0, prices.target);
    }
    found
}

/// Twelve locations in a ring, with long names and strict bounds.
fn ring() -> Sheet {
    let mut text = String::from("clocks temperature-of-the-whole-oven-1 y z\n");
    for i in 0..12 {
        let sign = if i % 2 == 0 { "<" } else { "<=" };
        text += &format!("location a-location-with-quite-a-long-name-{i}\n temperature-of-the-whole-oven-1 {sign} 12\n y < 9\n z <= {i}\n");
    }
    for i in 0..12 {
        let (from, to) = (i, (i + 1) % 12);
        text += &format!("edge on-to-the-next-of-all-locations-{i}: a-location-with-quite-a-long-name-{from} -> a-location-with-quite-a-long-name-{to}\n reset z\n reward 1\n");
    }
    parse(&text).unwrap()
}

fn ring_run(nths: i64, waits: &[i64]) -> String {
    let mut text = format!("nths {nths}\nloop\n");
    for i in 0..12 {
        text += &format!("delay {}\nedge on-to-the-next-of-all-locations-{i}\n", waits[i % waits.len()]);
    }
    text
}

/// Every schedule that is drawn, with its sheet.
pub fn all() -> Vec<(Sheet, Schedule)> {
    let sheets = [
        (parse(BENCH).unwrap(), "loop\ndelay 1\nedge finish\n".to_string()),
        (parse(BENCH).unwrap(), "nths 1000\nloop\ndelay 1\nedge finish\n".to_string()),
        // A long name of an edge beside a short one of a location.
        (
            parse(&BENCH.replace("finish", "finish-and-begin-again-at-once")).unwrap(),
            "loop\nedge finish-and-begin-again-at-once\n".to_string(),
        ),
        (parse(PRODUCTION).unwrap(), PRODUCTION_RUN.to_string()),
        (parse(BEACON).unwrap(), BEACON_RUN.to_string()),
        (parse(OVENS).unwrap(), OVENS_RUN.to_string()),
        (parse(LOADER).unwrap(), format!("{ROUND}loop\n{ROUND}")),
        (parse(LOADER).unwrap(), format!("{ROUND}loop\n{}", ROUND.repeat(25))),
        (parse(LOADER).unwrap(), format!("{}loop\n{}", ROUND.repeat(5), ROUND.repeat(333))),
        (ring(), ring_run(1, &[0])),
        (ring(), ring_run(10, &[7, 0, 1, 22])),
        (ring(), ring_run(1000, &[1, 999, 2])),
        (ring(), ring_run(1, &[12])),
    ];
    let with_rows = |(sheet, run): (Sheet, String)| {
        let found = schedule(&sheet, &run);
        (sheet, found)
    };
    sheets.into_iter().map(with_rows).collect()
}
