//! The sentences. What a search found is marked as such: it explains a refusal that is proved, and is not proved itself.

use super::gain::round;
use super::Why;
use crate::fraction::counted;
use crate::sheet::encode::encode;
use crate::sheet::Sheet;

const SEARCH: &str = "by the tool's own search (not proved)";

/// In words, a sentence a line; the loop of 14 is printed as a table by the caller.
pub fn words(sheet: &Sheet, why: &Why) -> Vec<String> {
    match why {
        Why::Sheet(refusal) => vec![refusal.to_string()],
        Why::Crowded(counts) => crowded(sheet, counts),
        Why::NoneEarns { reached, never, passed } => none_earns(sheet, reached, never, passed),
        Why::Gain { stem, cycle } => gain_words(sheet, stem, cycle),
    }
}

/// The largest count first, and of equal ones the location that comes first.
fn crowded(sheet: &Sheet, counts: &[usize]) -> Vec<String> {
    let mut told: Vec<_> = sheet.locations.iter().zip(counts).collect();
    told.sort_by_key(|(_, count)| std::cmp::Reverse(**count));
    let mut lines = vec![format!("more than 2,048 nodes are reached; of the first 2,048, {SEARCH}:")];
    lines.extend(told.iter().map(|(location, count)| format!("location '{}' has {}", location.name, counted(**count))));
    lines.push("fewer clocks and smaller bounds make fewer nodes, and so may a clock that is reset where it measures nothing".to_string());
    lines
}

fn names<'a>(names: impl Iterator<Item = &'a String>) -> String {
    names.map(|name| format!("'{name}'")).collect::<Vec<_>>().join(", ")
}

fn none_earns(sheet: &Sheet, reached: &[usize], never: &[(usize, String)], passed: &[usize]) -> Vec<String> {
    let mut lines = vec![format!("no cycle that earns is reached; {SEARCH}:")];
    let is_reached = |i: usize| reached.contains(&i);
    let located = |reached: bool| {
        let of = sheet.locations.iter().enumerate().filter(move |(i, _)| is_reached(*i) == reached);
        names(of.map(|(_, location)| &location.name))
    };
    lines.push(format!("locations that are reached: {}", located(true)));
    if reached.len() < sheet.locations.len() {
        lines.push(format!("locations that are never reached: {}", located(false)));
    }
    let never_words = |(i, why): &(usize, String)| format!("edge '{}' is never taken: {why}", sheet.edges[*i].name);
    lines.extend(never.iter().map(never_words));
    lines.push(cycles(sheet, passed));
    lines.extend(rewards(sheet, reached, never));
    lines
}

fn cycles(sheet: &Sheet, passed: &[usize]) -> String {
    if passed.is_empty() {
        return "there is no cycle at all".to_string();
    }
    format!("there are cycles, in {}, and none of them earns", names(passed.iter().map(|i| &sheet.locations[*i].name)))
}

/// Rewards that are reached, on no cycle.
fn rewards(sheet: &Sheet, reached: &[usize], never: &[(usize, String)]) -> Vec<String> {
    let locations = reached.iter().filter_map(|i| sheet.locations.get(*i)).filter(|location| location.reward > 0);
    let waits = locations
        .map(|location| format!("location '{}' has a reward and is reached, but no cycle has a unit of delay there", location.name));
    let taken = sheet.edges.iter().enumerate().filter(|(i, edge)| edge.reward > 0 && never.iter().all(|(other, _)| other != i));
    let takes = taken.map(|(_, edge)| format!("edge '{}' has a reward and is taken, but no cycle takes it", edge.name));
    let lines: Vec<_> = waits.chain(takes).collect();
    if lines.is_empty() {
        return vec!["nothing with a reward is reached".to_string()];
    }
    lines
}

fn gain_words(sheet: &Sheet, stem: &[u16], cycle: &[u16]) -> Vec<String> {
    let mut lines = vec![format!("a loop that earns nothing makes money; found {SEARCH}")];
    if let Some(round) = round(&encode(sheet), stem, cycle) {
        let units = if round.time == 1 { "unit" } else { "units" };
        lines.push(format!("one round costs {}, earns {} and takes {} {units} of time", round.cost, round.reward, round.time));
    }
    lines.push("with each round before it a cycle that earns may get cheaper, so that no ratio need be the least".to_string());
    lines
}
