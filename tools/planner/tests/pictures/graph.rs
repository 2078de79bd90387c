//! The text for Graphviz: each part once, and the cycle in bold.

use crate::schedules::{BEACON, BENCH, LOADER, PRODUCTION};
use tool::picture::dot::automaton;
use tool::text::parse;

#[test]
fn the_automaton_has_each_part_once() {
    for text in [PRODUCTION, LOADER, BEACON, BENCH] {
        let sheet = parse(text).unwrap();
        let dot = automaton(&sheet, &[]);
        assert!(dot.starts_with("digraph sheet {\n") && dot.ends_with("}\n"));
        assert_eq!(dot.matches("start -> l0;").count(), 1);
        for (i, location) in sheet.locations.iter().enumerate() {
            assert_eq!(dot.matches(&format!("\n  l{i} [label=\"{}\\n", location.name)).count(), 1);
        }
        for edge in &sheet.edges {
            assert_eq!(dot.matches(&format!("\n  l{} -> l{} [label=\"{}", edge.source, edge.target, edge.name)).count(), 1);
        }
        assert_eq!(dot.lines().filter(|line| line.contains("[label=")).count(), sheet.locations.len() + sheet.edges.len());
        assert!(!dot.contains("penwidth"));
    }
}

#[test]
fn the_cycle_of_the_automaton_is_bold() {
    let sheet = parse(PRODUCTION).unwrap();
    let number = |name: &str| sheet.edges.iter().position(|edge| edge.name == name).unwrap();
    let dot = automaton(&sheet, &[number("two-falls"), number("two-falls"), 99]);
    let bold: Vec<_> = dot.lines().filter(|line| line.contains("penwidth")).filter_map(|line| line.split('"').nth(1)).collect();
    let names: Vec<_> = bold.iter().filter_map(|label| label.split("\\n").next()).collect();
    assert_eq!(names, ["high-high", "high-low", "two-falls"]);
}

#[test]
fn the_automaton_says_what_the_sheet_says() {
    let dot = automaton(&parse(BENCH).unwrap(), &[0]);
    let bold = ", penwidth=2.5, color=\"#0072b2\"";
    assert!(dot.contains(&format!("  l0 [label=\"work\\ncost 1 a unit\\nx <= 2\"{bold}];\n")));
    assert!(dot.contains(&format!("  l0 -> l0 [label=\"finish\\nwhen x >= 1\\nreset x\\ncost 5\\nreward 2\"{bold}];\n")));
}

#[test]
fn quotes_and_backslashes_are_escaped_for_dot() {
    let mut sheet = parse(BENCH).unwrap();
    sheet.locations[0].name = "a\"b\\c\nd".to_string();
    assert!(automaton(&sheet, &[]).contains("[label=\"a\\\"b\\\\c d\\ncost"));
}
