//! From a sheet to a description.

use super::edition::Edition;
use super::{lower_words, upper_words, Edge, Location, Sheet};
use std::fmt::Write;

fn prices(cost: i16, reward: u16) -> String {
    let mut text = String::new();
    if cost != 0 {
        let _ = writeln!(text, "  cost {cost}");
    }
    if reward != 0 {
        let _ = writeln!(text, "  reward {reward}");
    }
    text
}

fn location_text(location: &Location, clocks: &[String]) -> String {
    let mut text = format!("\nlocation {}\n{}", location.name, prices(location.cost, location.reward));
    for (clock, upper) in clocks.iter().zip(location.upper) {
        if let Some(byte) = upper {
            let _ = writeln!(text, "  {clock} {}", upper_words(byte));
        }
    }
    text
}

/// The guards of an edge; two that leave one value are one.
pub fn guards(edge: &Edge, clocks: &[String]) -> Vec<String> {
    let mut guards = Vec::new();
    for (j, clock) in clocks.iter().enumerate() {
        match (edge.lower[j], edge.upper[j]) {
            (Some(lower), Some(upper)) if lower % 2 == 0 && upper == lower + 1 => guards.push(format!("{clock} = {}", lower / 2)),
            (lower, upper) => {
                guards.extend(lower.map(|byte| format!("{clock} {}", lower_words(byte))));
                guards.extend(upper.map(|byte| format!("{clock} {}", upper_words(byte))));
            }
        }
    }
    guards
}

/// The clocks that an edge resets.
pub fn resets<'a>(edge: &Edge, clocks: &'a [String]) -> Vec<&'a str> {
    let masked = |j: usize| edge.reset >> j & 1 == 1;
    clocks.iter().enumerate().filter(|(j, _)| masked(*j)).map(|(_, clock)| clock.as_str()).collect()
}

fn edge_text(edge: &Edge, sheet: &Sheet) -> String {
    let (source, target) = (&sheet.locations[edge.source].name, &sheet.locations[edge.target].name);
    let mut text = format!("\nedge {}: {source} -> {target}\n", edge.name);
    let (guards, reset) = (guards(edge, &sheet.clocks), resets(edge, &sheet.clocks));
    if !guards.is_empty() {
        let _ = writeln!(text, "  when {}", guards.join(", "));
    }
    if !reset.is_empty() {
        let _ = writeln!(text, "  reset {}", reset.join(" "));
    }
    text + &prices(edge.cost, edge.reward)
}

/// The edition, where it does not follow from the clocks.
fn edition_text(sheet: &Sheet) -> String {
    match Edition::least_for(sheet.clocks.len()) {
        edition if edition == sheet.edition => String::new(),
        _ => format!("edition {}\n", sheet.edition.number()),
    }
}

pub fn describe(sheet: &Sheet) -> String {
    let mut text = format!("{}clocks {}\n", edition_text(sheet), sheet.clocks.join(" "));
    for location in &sheet.locations {
        text += &location_text(location, &sheet.clocks);
    }
    for edge in &sheet.edges {
        text += &edge_text(edge, sheet);
    }
    text
}
