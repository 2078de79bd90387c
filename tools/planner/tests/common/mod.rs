//! Sheets for tests: those of the repository, and seeded ones.
#![allow(dead_code)]

use tool::input::{held, Held};
use tool::sheet::edition::EDITIONS;
use tool::sheet::{encode::edge_record, Bytes, Edge, Location, Sheet};
use tool::source::Source;

pub struct Dice(pub u64);

fn clock_names(count: usize) -> Vec<String> {
    ["x", "y", "z", "w"][..count].iter().map(|name| name.to_string()).collect()
}

/// An edge that is not in the sheet yet is put there.
pub fn push_once(sheet: &mut Sheet, edge: Edge) {
    let record = |edge: &Edge| edge_record(sheet.edition, edge);
    if sheet.edges.iter().all(|other| record(other) != record(&edge)) {
        sheet.edges.push(edge);
    }
}

impl Dice {
    pub fn below(&mut self, n: u64) -> u64 {
        self.0 = self.0.wrapping_mul(6364136223846793005).wrapping_add(1442695040888963407);
        (self.0 >> 33) % n
    }

    /// An edition and clocks, no more than it may have; no location and no edge.
    pub fn blank_sheet(&mut self) -> Sheet {
        let edition = EDITIONS[self.below(2) as usize];
        let clocks = 1 + self.below(edition.clocks() as u64) as usize;
        Sheet { edition, clocks: clock_names(clocks), ..Sheet::default() }
    }

    pub fn some_bytes(&mut self, clocks: usize, least: u64, most: u64, always: bool) -> Bytes {
        let mut found = Bytes::default();
        for slot in found.iter_mut().take(clocks) {
            *slot = (always || self.below(3) == 0).then(|| (least + self.below(most + 1 - least)) as u8);
        }
        found
    }

    /// A small sheet, most of them with something strict, that often has a plan.
    pub fn small_sheet(&mut self) -> Sheet {
        let mut sheet = self.blank_sheet();
        let (locations, clocks, edges) = (1 + self.below(3), sheet.clocks.len(), 1 + self.below(6));
        for i in 0..locations {
            let upper = self.some_bytes(clocks, 3, 7, true);
            sheet.locations.push(Location { name: format!("l{i}"), cost: self.below(7) as i16, reward: self.below(2) as u16, upper });
        }
        for _ in 0..edges {
            let name = format!("e{}", sheet.edges.len());
            let (source, target) = (self.below(locations) as usize, self.below(locations) as usize);
            let (lower, upper) = (self.some_bytes(clocks, 1, 5, false), self.some_bytes(clocks, 1, 7, false));
            let (cost, reward, reset) = (self.below(9) as i16 - 1, self.below(4) as u16, self.below(1 << clocks) as u8);
            let edge = Edge { name, source, target, cost, reward, reset, lower, upper };
            push_once(&mut sheet, edge);
        }
        sheet
    }
}

/// The same sheet with nothing strict; a lower guard that then holds always is left out.
pub fn closed(sheet: Sheet) -> Sheet {
    let mut found = sheet.closed();
    for mut edge in std::mem::take(&mut found.edges) {
        edge.lower = edge.lower.map(|byte| byte.filter(|byte| *byte > 0));
        push_once(&mut found, edge);
    }
    found
}

impl Dice {
    /// A ring of locations with strict guards, of which one earns, by waiting alone.
    pub fn ring_sheet(&mut self) -> Sheet {
        let (count, clocks) = (2 + self.below(3) as usize, 1 + self.below(2) as usize);
        let earns = self.below(count as u64) as usize;
        let mut sheet = Sheet { clocks: clock_names(clocks), ..Sheet::default() };
        for i in 0..count {
            let (name, cost, upper) = (format!("l{i}"), self.below(3) as i16, self.some_bytes(clocks, 5, 7, true));
            sheet.locations.push(Location { name, cost, reward: u16::from(i == earns), upper });
            // above a number and below the next one or the one after
            let first = self.below(2);
            let (lower, upper) = ((2 * first + 1) as u8, (2 * (first + 1 + self.below(2))) as u8);
            let reset = if i + 1 == count { 3 >> (2 - clocks) } else { self.below(1 << clocks) as u8 };
            let (cost, ends) = (self.below(2) as i16, (i, (i + 1) % count));
            let [lower, upper] = [lower, upper].map(|byte| [Some(byte), None, None, None]);
            sheet.edges.push(Edge { name: format!("e{i}"), source: ends.0, target: ends.1, cost, reward: 0, reset, lower, upper });
        }
        sheet
    }
}

/// A sheet of the folder sheets/, by its file's name.
pub fn source(name: &str) -> Source {
    let path = format!("{}/../../sheets/{name}", env!("CARGO_MANIFEST_DIR"));
    let bytes = std::fs::read(&path).unwrap_or_else(|error| panic!("{path}: {error}"));
    match held(name.to_string(), bytes) {
        Ok(Held::Sheet(source)) => source,
        other => panic!("{name}: {other:?}"),
    }
}
