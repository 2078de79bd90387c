//! The automaton in the language of Graphviz.

use crate::sheet::describe::{guards, resets};
use crate::sheet::{upper_words, Edge, Location, Sheet};
use std::fmt::Write;

const BOLD: &str = ", penwidth=2.5, color=\"#0072b2\"";

/// Lines of a label, as dot has them between quotes.
fn quoted(lines: &[String]) -> String {
    let mut text = String::from("\"");
    for (i, line) in lines.iter().enumerate() {
        if i > 0 {
            text.push_str("\\n");
        }
        for sign in line.chars() {
            match sign {
                '"' | '\\' => text.extend(['\\', sign]),
                _ if sign.is_control() => text.push(' '),
                _ => text.push(sign),
            }
        }
    }
    text + "\""
}

/// The prices that stand, a location's for each unit of time.
fn prices(cost: i16, reward: u16, each: &str) -> Vec<String> {
    let cost = (cost != 0).then(|| format!("cost {cost}{each}"));
    let reward = (reward != 0).then(|| format!("reward {reward}{each}"));
    cost.into_iter().chain(reward).collect()
}

fn location_lines(location: &Location, clocks: &[String]) -> Vec<String> {
    let mut lines = vec![location.name.clone()];
    lines.extend(prices(location.cost, location.reward, " a unit"));
    let bounds = clocks.iter().zip(location.upper).filter_map(|(clock, upper)| Some(format!("{clock} {}", upper_words(upper?))));
    lines.push(bounds.collect::<Vec<_>>().join(", "));
    lines.retain(|line| !line.is_empty());
    lines
}

fn edge_lines(edge: &Edge, clocks: &[String]) -> Vec<String> {
    let (guards, reset) = (guards(edge, clocks), resets(edge, clocks));
    let mut lines = vec![edge.name.clone()];
    if !guards.is_empty() {
        lines.push(format!("when {}", guards.join(", ")));
    }
    if !reset.is_empty() {
        lines.push(format!("reset {}", reset.join(" ")));
    }
    lines.extend(prices(edge.cost, edge.reward, ""));
    lines
}

/// The edges in `bold` are those of the cycle. They and the locations that they touch are drawn in bold.
pub fn automaton(sheet: &Sheet, bold: &[usize]) -> String {
    let touched = |i: usize| bold.iter().filter_map(|e| sheet.edges.get(*e)).any(|edge| edge.source == i || edge.target == i);
    let thick = |thick: bool| if thick { BOLD } else { "" };
    let mut text = String::from(
        "digraph sheet {\n  bgcolor=\"white\";\n  rankdir=LR;\n  node [shape=box, style=rounded, fontname=\"sans-serif\", fontsize=12];\n  \
         edge [fontname=\"sans-serif\", fontsize=10];\n  start [shape=point, width=0.12, label=\"\"];\n",
    );
    for (i, location) in sheet.locations.iter().enumerate() {
        let label = quoted(&location_lines(location, &sheet.clocks));
        let _ = writeln!(text, "  l{i} [label={label}{}];", thick(touched(i)));
    }
    if !sheet.locations.is_empty() {
        text.push_str("  start -> l0;\n");
    }
    for (i, edge) in sheet.edges.iter().enumerate() {
        let label = quoted(&edge_lines(edge, &sheet.clocks));
        let _ = writeln!(text, "  l{} -> l{} [label={label}{}];", edge.source, edge.target, thick(bold.contains(&i)));
    }
    text + "}\n"
}
