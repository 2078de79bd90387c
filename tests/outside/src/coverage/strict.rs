//! The kinds of sheets refused with 18 that the random sheets promise to cover.

use crate::coverage::tally::Tally;
use crate::reading::explore::Graph;
use crate::reading::sheet::Sheet;
use crate::reading::strict::{strict_bytes, Byte, Strict};
use std::collections::BTreeSet;

const NOWHERE: &str = "refused 18, strict among others: nothing where a run comes";

fn named(byte: Byte) -> &'static str {
    match byte {
        Byte::Bound => "a bound",
        Byte::UpperGuard => "an upper guard",
        Byte::LowerGuard => "a lower guard",
    }
}

fn place(strict: &Strict, graph: &Graph) -> String {
    let reached = if strict.is_reached(graph) { "" } else { ", where no run comes" };
    format!("{}{reached}", named(strict.byte))
}

fn count_only(tally: &mut Tally, only: &Strict, graph: &Graph) {
    let Strict { byte, at, clock, value } = *only;
    let record = if byte == Byte::Bound { "location" } else { "edge" };
    tally.count(format!("refused 18, strict is only something of: {record} {at:>2}"));
    tally.count(format!("refused 18, strict is only: {}", place(only, graph)));
    tally.count(format!("refused 18, strict is only: {} of clock {clock}", named(byte)));
    if value == 0 {
        tally.count(format!("refused 18, strict is only: {} of 0", named(byte)));
    }
}

pub fn count_18(tally: &mut Tally, sheet: &Sheet, graph: &Graph) {
    let found = strict_bytes(sheet);
    if let [only] = &found[..] {
        return count_only(tally, only, graph);
    }
    let places: BTreeSet<String> = found.iter().map(|strict| place(strict, graph)).collect();
    for place in places {
        tally.count(format!("refused 18, strict among others: {place}"));
    }
    if !found.iter().any(|strict| strict.is_reached(graph)) {
        tally.count(NOWHERE);
    }
}

pub fn count_fault_beside(tally: &mut Tally, refusal: u8) {
    tally.count(format!("something strict and a fault, work plan answers: {refusal:>2}"));
}

/// Each kind and the least number of its cases.
pub fn promised() -> Vec<(String, u64)> {
    let beside = (2..=11).chain([17]).map(|answer| {
        (format!("something strict and a fault, work plan answers: {answer:>2}"), 15)
    });
    let bytes = [Byte::Bound, Byte::UpperGuard, Byte::LowerGuard].map(named);
    let places = ["", ", where no run comes"];
    let places = places.iter().flat_map(|place| bytes.map(|byte| format!("{byte}{place}")));
    let places = places.flat_map(|place| {
        let only = (format!("refused 18, strict is only: {place}"), 100);
        [only, (format!("refused 18, strict among others: {place}"), 100)]
    });
    let clocks = [150, 50, 17, 17].into_iter().enumerate();
    let clocks = clocks.flat_map(|(clock, least)| {
        bytes.map(|byte| (format!("refused 18, strict is only: {byte} of clock {clock}"), least))
    });
    let zeros = [(Byte::Bound, 30), (Byte::UpperGuard, 8)]
        .map(|(byte, least)| (format!("refused 18, strict is only: {} of 0", named(byte)), least));
    let records = [("location", 12), ("edge", 32)].into_iter().flat_map(|(record, count)| {
        (0..count).map(move |at| {
            (format!("refused 18, strict is only something of: {record} {at:>2}"), 3)
        })
    });
    let all = beside.chain(places).chain([(NOWHERE.to_string(), 30)]);
    all.chain(clocks).chain(zeros).chain(records).collect()
}
