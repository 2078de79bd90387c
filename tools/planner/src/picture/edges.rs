//! The edges: arrows from lane to lane, and their names above the lanes.

use super::layout::{Layout, NAME};
use super::letters::{cut, label, Anchor, Label, Look};
use super::svg::Svg;
use super::timeline::Stay;
use crate::sheet::describe::resets;
use std::f64::consts::FRAC_1_SQRT_2;

const SIZE: f64 = 11.0;
/// From the end of a name to the lanes.
const POLE: f64 = 10.0;
const HEAD: f64 = 6.0;

/// The edge in words: its ends, when it is taken, and what it does.
fn hint(layout: &Layout, stay: &Stay) -> String {
    let (sheet, edge) = (layout.sheet, &layout.sheet.edges[stay.row.edge]);
    let (source, target) = (&sheet.locations[edge.source].name, &sheet.locations[edge.target].name);
    let mut words = format!("{}: {source} -> {target}, at {}", edge.name, layout.line.units(stay.end));
    let reset = resets(edge, &sheet.clocks);
    if !reset.is_empty() {
        words += &format!(", resets {}", reset.join(" "));
    }
    if edge.cost != 0 {
        words += &format!(", cost {}", edge.cost);
    }
    if edge.reward != 0 {
        words += &format!(", reward {}", edge.reward);
    }
    words
}

/// The name of the edge that ends a stay. It comes down to the moment of the edge.
fn name(layout: &Layout, stay: &Stay) -> Label {
    let at = (layout.left + stay.to - 0.25 * SIZE, layout.lanes_top - POLE + 0.25 * SIZE);
    let text = cut(&layout.sheet.edges[stay.row.edge].name, NAME);
    Label { hint: hint(layout, stay), turned: true, again: stay.again, ..label(text, at, SIZE, Anchor::End, Look::Plain) }
}

pub fn labels(layout: &Layout) -> Vec<Label> {
    layout.line.stays.iter().map(|stay| name(layout, stay)).collect()
}

/// How far names reach to the left of the time's left end.
pub fn overhang(layout: &Layout) -> f64 {
    let reach = |stay: &Stay| (name(layout, stay).width() + SIZE) * FRAC_1_SQRT_2 - stay.to;
    layout.line.stays.iter().map(reach).fold(0.0, f64::max)
}

/// What the names take above the lanes.
pub fn height(layout: &Layout) -> f64 {
    let reach = |stay: &Stay| (name(layout, stay).width() + SIZE) * FRAC_1_SQRT_2;
    layout.line.stays.iter().map(reach).fold(0.0, f64::max) + POLE + 4.0
}

/// The lines from the names to the arrows.
fn poles(layout: &Layout, svg: &mut Svg) {
    svg.open("stroke=\"#8c8c8c\" stroke-width=\"0.8\"");
    for stay in &layout.line.stays {
        let edge = &layout.sheet.edges[stay.row.edge];
        let (x, y) = (layout.left + stay.to, layout.lane(edge.source).min(layout.lane(edge.target)));
        svg.line((x, layout.lanes_top - POLE), (x, y), "");
    }
    svg.close();
}

fn arrow(layout: &Layout, stay: &Stay, svg: &mut Svg) {
    let (edge, x) = (&layout.sheet.edges[stay.row.edge], layout.left + stay.to);
    let (from, to) = (layout.lane(edge.source), layout.lane(edge.target));
    if edge.source == edge.target {
        svg.open("fill=\"#ffffff\"");
        svg.circle((x, to), 4.5, &hint(layout, stay));
        svg.close();
        return;
    }
    let back = if to > from { -HEAD } else { HEAD };
    svg.line((x, from), (x, to + back), &hint(layout, stay));
    svg.polygon(&[(x, to), (x - 0.6 * HEAD, to + 1.4 * back), (x + 0.6 * HEAD, to + 1.4 * back)]);
}

pub fn draw(layout: &Layout, svg: &mut Svg) {
    poles(layout, svg);
    for (again, colour) in [(false, "#1a1a1a"), (true, "#7a7a7a")] {
        svg.open(&format!("fill=\"{colour}\" stroke=\"{colour}\" stroke-width=\"1.6\""));
        for stay in layout.line.stays.iter().filter(|stay| stay.again == again) {
            arrow(layout, stay, svg);
        }
        svg.close();
    }
}
