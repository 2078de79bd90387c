//! Where everything stands, before anything is drawn.

use super::timeline::Timeline;
use super::{clocks, edges, lanes, parts};
use crate::schedule::{Schedule, Sum};
use crate::sheet::Sheet;

pub const MARGIN: f64 = 16.0;
/// Below heading and second line.
const HEAD: f64 = 66.0;
/// Names are cut behind this number of signs.
pub const NAME: usize = 28;
/// In a wide picture names are repeated at this number of pixels.
const AGAIN: f64 = 1200.0;

/// The panel of a clock: its place, and the value at its upper end in units.
pub struct Panel {
    pub clock: usize,
    pub top: f64,
    pub height: f64,
    pub most: i64,
}

pub struct Layout<'a> {
    pub sheet: &'a Sheet,
    pub title: &'a str,
    pub schedule: &'a Schedule,
    /// What the cycle takes, costs and earns, as it is told.
    pub cycle: Sum,
    pub line: Timeline<'a>,
    /// The left end of time.
    pub left: f64,
    /// The lower end of the strip that names stem and cycle.
    pub strip: f64,
    pub lanes_top: f64,
    pub lane_height: f64,
    pub panels: Vec<Panel>,
    /// The height at which the axis of time stands.
    pub axis: f64,
    /// Where names stand again, from the left end of time.
    pub waymarks: Vec<f64>,
}

fn waymarks(width: f64) -> Vec<f64> {
    (1..).map(|k| f64::from(k) * AGAIN).take_while(|x| x + 300.0 < width).collect()
}

impl<'a> Layout<'a> {
    pub fn new(sheet: &'a Sheet, title: &'a str, schedule: &'a Schedule, cycle: Sum) -> Layout<'a> {
        let line = Timeline::new(schedule);
        let waymarks = waymarks(line.width());
        let lane_height = if waymarks.is_empty() { 26.0 } else { 36.0 };
        let mut layout = Layout {
            sheet,
            title,
            schedule,
            cycle,
            line,
            left: MARGIN,
            strip: HEAD,
            lanes_top: 0.0,
            lane_height,
            panels: Vec::new(),
            axis: 0.0,
            waymarks,
        };
        layout.left += lanes::room(&layout).max(clocks::room(&layout)).max(edges::overhang(&layout));
        layout.strip += parts::height(&layout);
        layout.lanes_top = layout.strip + edges::height(&layout);
        let below = layout.lanes_top + sheet.locations.len() as f64 * lane_height;
        layout.panels = clocks::panels(&layout, below);
        layout.axis = layout.panels.last().map_or(below, |panel| panel.top + panel.height) + 14.0;
        layout
    }

    /// The middle of a location's bars.
    pub fn lane(&self, location: usize) -> f64 {
        self.lanes_top + (location as f64 + 1.0) * self.lane_height - 13.0
    }

    pub fn right(&self) -> f64 {
        self.left + self.line.width()
    }
}
