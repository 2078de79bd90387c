//! The clocks: each grows with time in a panel of its own, under the bound of the location.

use super::axis::pace;
use super::layout::{Layout, Panel, NAME};
use super::letters::{cut, label, width, Anchor, Label, Look};
use super::svg::{Point, Svg};
use super::timeline::Stay;
use crate::sheet::upper_words;

const SIZE: f64 = 11.0;
/// What the numbers of the values take at the left.
const NUMBERS: f64 = 30.0;
const GAP: f64 = 20.0;

/// What names and numbers take at the left.
pub fn room(layout: &Layout) -> f64 {
    layout.sheet.clocks.iter().map(|name| width(&cut(name, NAME), SIZE) * 1.12).fold(0.0, f64::max) + NUMBERS + 4.0
}

/// The value of a clock when a stay begins, in nths.
fn value(stay: &Stay, clock: usize) -> i64 {
    stay.row.clocks.get(clock).copied().unwrap_or(0)
}

/// The byte of the bound that a clock is under.
fn bound(layout: &Layout, stay: &Stay, clock: usize) -> Option<u8> {
    layout.sheet.locations[stay.row.location].upper.get(clock).copied().flatten()
}

/// The whole units that a panel has to hold.
fn most(layout: &Layout, clock: usize) -> i64 {
    let reached = |stay: &Stay| value(stay, clock).saturating_add(stay.row.wait).saturating_add(layout.line.nths - 1) / layout.line.nths;
    let bounds = |stay: &Stay| bound(layout, stay, clock).map_or(0, |byte| i64::from(byte / 2));
    layout.line.stays.iter().map(|stay| reached(stay).max(bounds(stay))).fold(1, i64::max)
}

pub fn panels(layout: &Layout, mut top: f64) -> Vec<Panel> {
    let mut panels = Vec::new();
    for clock in 0..layout.sheet.clocks.len() {
        let most = most(layout, clock);
        let height = (most as f64 * 14.0).clamp(56.0, 126.0);
        panels.push(Panel { clock, top: top + GAP, height, most });
        top += GAP + height;
    }
    panels
}

/// The whole values that are named on a panel's axis.
fn values(panel: &Panel) -> Vec<i64> {
    let step = pace(14.0 * panel.most as f64 / panel.height, 1).upper;
    (0..).map(|k: i64| k.saturating_mul(step)).take_while(|value| *value <= panel.most).collect()
}

fn height(panel: &Panel, units: f64) -> f64 {
    panel.top + panel.height * (1.0 - units / panel.most as f64)
}

fn panel_labels(layout: &Layout, panel: &Panel) -> Vec<Label> {
    let name = &layout.sheet.clocks[panel.clock];
    let (left, short) = (layout.left, cut(name, NAME));
    let at = (left - NUMBERS, panel.top + panel.height / 2.0 + 4.0);
    let mut labels = vec![Label { hint: name.clone(), ..label(short.clone(), at, SIZE, Anchor::End, Look::Bold) }];
    for value in values(panel) {
        let y = height(panel, value as f64) + 4.0;
        labels.push(label(value.to_string(), (left - 7.0, y), SIZE, Anchor::End, Look::Plain));
        labels.extend(layout.waymarks.iter().map(|x| label(value.to_string(), (left + x + 3.0, y - 1.0), 9.0, Anchor::Start, Look::Seam)));
    }
    labels.extend(layout.waymarks.iter().map(|x| label(short.clone(), (left + x + 20.0, panel.top - 4.0), 9.0, Anchor::Start, Look::Seam)));
    labels
}

pub fn labels(layout: &Layout) -> Vec<Label> {
    layout.panels.iter().flat_map(|panel| panel_labels(layout, panel)).collect()
}

fn ground(layout: &Layout, panel: &Panel, svg: &mut Svg) {
    svg.open("stroke=\"#d9d9d9\" stroke-width=\"0.8\"");
    for value in values(panel) {
        let y = height(panel, value as f64);
        svg.line((layout.left - 4.0, y), (layout.right(), y), "");
    }
    svg.close();
    svg.open("stroke=\"#1a1a1a\" stroke-width=\"1\"");
    svg.line((layout.left, panel.top), (layout.left, panel.top + panel.height), "");
    svg.close();
}

/// Stays side by side under the same bound make one line, dashed where the bound is strict.
fn bounds(layout: &Layout, panel: &Panel, stays: &[Stay], svg: &mut Svg) {
    let (name, mut before) = (&layout.sheet.clocks[panel.clock], None);
    for run in stays.chunk_by(|a, b| bound(layout, a, panel.clock) == bound(layout, b, panel.clock)) {
        let Some(byte) = bound(layout, &run[0], panel.clock) else { continue };
        let (from, to) = (layout.left + run[0].from, layout.left + run[run.len() - 1].to);
        let y = height(panel, f64::from(byte / 2));
        svg.open(if byte % 2 == 1 { "stroke-width=\"2\"" } else { "stroke-width=\"2\" stroke-dasharray=\"5 3\"" });
        svg.line((from, y), (to, y), &format!("{name} {}", upper_words(byte)));
        svg.close();
        if let Some(last) = before.replace(y) {
            svg.line((from, last), (from, y), "");
        }
    }
}

/// The points of a clock through some stays, and where the last edge leads.
fn points(layout: &Layout, panel: &Panel, stays: &[Stay]) -> Vec<Point> {
    let at = |x: f64, nths: i64| (layout.left + x, height(panel, nths as f64 / layout.line.nths as f64));
    let mut points = Vec::new();
    for stay in stays {
        let low = value(stay, panel.clock);
        points.extend([at(stay.from, low), at(stay.to, low.saturating_add(stay.row.wait))]);
    }
    let round = layout.schedule.cycle.first().and_then(|row| row.clocks.get(panel.clock));
    points.extend(stays.last().zip(round).map(|(stay, value)| at(stay.to, *value)));
    points
}

pub fn draw(layout: &Layout, svg: &mut Svg) {
    let (first, second) = layout.line.stays.split_at(layout.line.once);
    for panel in &layout.panels {
        ground(layout, panel, svg);
        let passes = [(first, "#d55e00", "#0072b2"), (second, "#eab08a", "#6aaed6")];
        for (stays, orange, blue) in passes.into_iter().filter(|pass| !pass.0.is_empty()) {
            svg.open(&format!("stroke=\"{orange}\" stroke-width=\"0.8\" fill=\"none\""));
            bounds(layout, panel, stays, svg);
            svg.close();
            svg.open(&format!("stroke=\"{blue}\" stroke-width=\"2\" stroke-linejoin=\"round\" fill=\"none\""));
            svg.polyline(&points(layout, panel, stays), &layout.sheet.clocks[panel.clock]);
            svg.close();
        }
    }
}
