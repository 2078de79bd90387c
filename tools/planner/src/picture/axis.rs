//! The axis of time, and the ticks of both axes.

use super::layout::Layout;
use super::letters::{label, width, Anchor, Label, Look};
use super::svg::Svg;
use crate::fraction::fraction;

const SIZE: f64 = 11.0;

/// A step of 1, 2 or 5 times a power of ten, as a fraction.
#[derive(Clone, Copy, Debug, PartialEq, Eq)]
pub struct Pace {
    pub upper: i64,
    pub lower: i64,
}

/// The least pace that takes so much of a unit, down to the least part named by its lower number.
pub fn pace(least: f64, lower: i64) -> Pace {
    let paces = std::iter::successors(Some(Pace { upper: 1, lower }), |pace| Some(wider(*pace)));
    paces.take(60).find(|pace| pace.upper as f64 / pace.lower as f64 >= least).unwrap_or(Pace { upper: i64::MAX, lower: 1 })
}

fn wider(pace: Pace) -> Pace {
    let (power, first) = (pace.upper.ilog10(), pace.upper / 10_i64.pow(pace.upper.ilog10()));
    match first {
        1 => Pace { upper: pace.upper.saturating_mul(2), ..pace },
        2 => Pace { upper: 10_i64.pow(power).saturating_mul(5), ..pace },
        _ => Pace { upper: pace.upper.saturating_mul(2), ..pace },
    }
}

/// Ticks of the axis of time: its nths, and the number of units in words.
pub fn ticks(layout: &Layout) -> Vec<(f64, String)> {
    let line = &layout.line;
    let widest = width(&line.units(line.end() / line.nths * line.nths), SIZE) + 14.0;
    // Parts of a unit are ticked where the schedule is short.
    let lower = if line.end() / line.nths < 2 { 1000 } else { 1 };
    let pace = pace(widest.max(34.0) / line.scale, lower);
    let apart = pace.upper as f64 / pace.lower as f64 * line.nths as f64;
    let number = |k: i64| fraction(i128::from(k) * i128::from(pace.upper), pace.lower.into());
    (0..).map(|k| (k as f64 * apart, number(k))).take_while(|tick| tick.0 <= line.end() as f64).collect()
}

pub fn labels(layout: &Layout) -> Vec<Label> {
    let y = layout.axis + 17.0;
    let at = |time: f64| layout.left + layout.line.place(time);
    let mut labels: Vec<Label> =
        ticks(layout).into_iter().map(|(time, words)| label(words, (at(time), y), SIZE, Anchor::Middle, Look::Plain)).collect();
    labels.push(label("time in units", (layout.left, y + 18.0), SIZE, Anchor::Start, Look::Quiet));
    labels
}

/// Faint lines through lanes and clocks at each tick.
pub fn grid(layout: &Layout, svg: &mut Svg) {
    svg.open("stroke=\"#d0d0d0\" stroke-width=\"0.8\"");
    for (time, _) in ticks(layout) {
        let x = layout.left + layout.line.place(time);
        svg.line((x, layout.lanes_top), (x, layout.axis + 5.0), "");
    }
    svg.close();
}

/// The axis is dotted where waits are stretched.
pub fn draw(layout: &Layout, svg: &mut Svg) {
    for (stretched, style) in [(false, ""), (true, " stroke-dasharray=\"1.5 3\"")] {
        svg.open(&format!("stroke=\"#1a1a1a\" stroke-width=\"1.5\"{style}"));
        for stay in layout.line.stays.iter().filter(|stay| stay.stretched == stretched) {
            svg.line((layout.left + stay.from, layout.axis), (layout.left + stay.to, layout.axis), "");
        }
        svg.close();
    }
}
