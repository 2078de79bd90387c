//! How alike the edge records of a sheet are, counted, and what the random sheets promise of it.

use crate::coverage::tally::Tally;
use crate::reading::edition::Edition;
use crate::reading::fields::longest_edge;
use std::collections::BTreeSet;

/// The places of the bytes that differ, of those that both records have.
fn differing(a: &[u8], b: &[u8]) -> Vec<usize> {
    (0..a.len().min(b.len())).filter(|&at| a[at] != b[at]).collect()
}

/// Whether two different records have the same bytes behind their maps.
pub fn only_maps_differ(a: &[u8], b: &[u8]) -> bool {
    a[..2] != b[..2] && a[2..] == b[2..]
}

/// Whether two records of one length differ in their last byte and in no other.
pub fn only_last_bytes_differ(a: &[u8], b: &[u8]) -> bool {
    a.len() == b.len() && differing(a, b) == [a.len() - 1]
}

/// All pairs of records, each with its distance.
pub fn pairs<'a>(records: &'a [&'a [u8]]) -> impl Iterator<Item = (&'a [u8], &'a [u8], usize)> {
    let places =
        (0..records.len()).flat_map(|second| (0..second).map(move |first| (first, second)));
    places.map(|(first, second)| (records[first], records[second], second - first))
}

/// What is to be seen in two records that differ.
fn likeness(a: &[u8], b: &[u8]) -> Vec<String> {
    let mut kinds = Vec::new();
    if let [place] = differing(a, b)[..] {
        // Of the second byte of a map the highest bit is that of the last field.
        if a.len() == b.len() || place == 1 {
            kinds.push(format!("byte {place:>2}"));
        }
        if a.len() == b.len() {
            kinds.push(format!("a byte of {:>2}", a.len()));
        }
    }
    if only_maps_differ(a, b) {
        kinds.push(if a[1] == b[1] { "the map" } else { "both bytes of the map" }.to_string());
    }
    kinds
}

/// The distance of an edge entered twice; of other sheets how near two edges come to that.
pub fn count_alike(tally: &mut Tally, records: &[&[u8]]) {
    let equal: Vec<(usize, usize)> = pairs(records)
        .filter(|(a, b, _)| a == b)
        .map(|(a, _, distance)| (distance, a.len()))
        .collect();
    match equal[..] {
        [] => {
            let kinds: BTreeSet<String> =
                pairs(records).flat_map(|(a, b, _)| likeness(a, b)).collect();
            kinds.iter().for_each(|kind| tally.count(format!("edges equal but for: {kind}")));
        }
        [(distance, length)] => {
            tally.count(format!("an edge twice: {distance:>2} apart"));
            tally.count(format!("an edge twice: of {length:>2} bytes"));
        }
        _ => tally.count("an edge twice: and more than twice"),
    }
}

pub fn count_fault_beside(tally: &mut Tally, refusal: u8) {
    tally.count(format!("an edge twice and a fault, plan answers: {refusal:>2}"));
}

pub fn count_but_for_17(tally: &mut Tally, refusal: u8) {
    tally.count(format!("refused 17, otherwise: {refusal:>2}"));
}

/// Each kind and the least number of its cases.
pub fn promised() -> Vec<(String, u64)> {
    let apart = (1..=31).map(|distance| (format!("an edge twice: {distance:>2} apart"), 12));
    let longest = longest_edge(Edition::Second);
    let bytes = (0..longest).map(|at| (format!("edges equal but for: byte {at:>2}"), 15));
    let twice = (4..=longest).map(|length| (format!("an edge twice: of {length:>2} bytes"), 5));
    let nearly =
        (4..=longest).map(|length| (format!("edges equal but for: a byte of {length:>2}"), 10));
    let maps = [("the map", 20), ("both bytes of the map", 5)];
    let maps = maps.map(|(kind, least)| (format!("edges equal but for: {kind}"), least));
    // 17 is answered where question 11 finds the fault.
    let beside = (2..=10).chain([17]);
    let beside = beside
        .map(|refusal| (format!("an edge twice and a fault, plan answers: {refusal:>2}"), 20));
    let otherwise = [(0, 100), (11, 20), (12, 20), (13, 50), (14, 20)];
    let otherwise =
        otherwise.map(|(refusal, least)| (format!("refused 17, otherwise: {refusal:>2}"), least));
    let alike = apart.chain(bytes).chain(twice).chain(nearly).chain(maps);
    alike.chain(beside).chain(otherwise).collect()
}
