//! Pictures: the schedule as a chart, and the automaton for Graphviz.

mod axis;
mod clocks;
pub mod dot;
mod edges;
pub mod graphviz;
mod lanes;
mod layout;
mod legend;
mod letters;
mod parts;
mod svg;
mod timeline;

use crate::schedule::{Schedule, Sum};
use crate::sheet::Sheet;
use layout::{Layout, MARGIN};
pub use letters::{Anchor, Label, Look};
use svg::Svg;

/// Every text of the chart.
fn all_labels(layout: &Layout) -> Vec<Label> {
    let lists = [legend::labels, parts::labels, edges::labels, lanes::labels, clocks::labels, axis::labels];
    lists.into_iter().flat_map(|list| list(layout)).collect()
}

/// The texts of the chart with their places.
pub fn labels(sheet: &Sheet, title: &str, schedule: &Schedule, cycle: Sum) -> Vec<Label> {
    all_labels(&Layout::new(sheet, title, schedule, cycle))
}

/// The size that holds all texts and the lanes.
fn size(layout: &Layout, labels: &[Label]) -> (f64, f64) {
    let corners = || labels.iter().flat_map(Label::corners);
    let right = corners().map(|(x, _)| x).fold(layout.right() + 8.0, f64::max);
    let below = corners().map(|(_, y)| y).fold(layout.axis, f64::max);
    ((right + MARGIN).ceil(), (below + MARGIN).ceil())
}

/// The schedule as an SVG file: a lane for each location, and below it each clock under its bound. Its words tell what the cycle takes,
/// costs and earns.
pub fn chart(sheet: &Sheet, title: &str, schedule: &Schedule, cycle: Sum) -> String {
    let layout = Layout::new(sheet, title, schedule, cycle);
    let labels = all_labels(&layout);
    let (width, height) = size(&layout, &labels);
    let mut svg = Svg::new(width, height, title);
    for draw in [parts::draw, axis::grid, lanes::ground, lanes::draw, edges::draw, clocks::draw, axis::draw, legend::draw] {
        draw(&layout, &mut svg);
    }
    labels.iter().for_each(|label| svg.label(label));
    svg.finish()
}
