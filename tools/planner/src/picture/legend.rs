//! Heading and second line, and at the foot what the signs mean.

use super::layout::{Layout, MARGIN};
use super::letters::{cut, label, Anchor, Label, Look};
use super::svg::Svg;
use crate::fraction::{decimal, fraction};

/// A longer title is cut; the whole one is the title of the file.
const TITLE: usize = 90;
const SIZE: f64 = 11.0;
const SAMPLE: f64 = 24.0;

#[derive(Clone, Copy, PartialEq, Eq)]
enum Sign {
    Bar,
    Arrow,
    Loop,
    Clock,
    Bound,
    Strict,
    Dots,
}

/// What the cycle takes, costs and earns.
fn second_line(layout: &Layout) -> String {
    let (line, sum) = (&layout.line, layout.cycle);
    let [cost, reward] = [sum.cost, sum.reward].map(i128::from);
    let ratio = match reward {
        0 => "none".to_string(),
        _ if cost % reward == 0 => fraction(cost, reward),
        _ => format!("{} ({})", fraction(cost, reward), decimal(cost, reward)),
    };
    format!("cycle: {}, cost {}, reward {}, ratio {ratio}", line.counted(sum.time), line.units(sum.cost), line.units(sum.reward))
}

/// The signs that this picture has, with their meaning.
fn signs(layout: &Layout) -> Vec<(Sign, &'static str)> {
    let (sheet, stays) = (layout.sheet, &layout.line.stays);
    let strict = |even: u8| stays.iter().any(|stay| sheet.locations[stay.row.location].upper.iter().flatten().any(|byte| byte % 2 == even));
    let around = |same: bool| stays.iter().any(|stay| (sheet.edges[stay.row.edge].source == sheet.edges[stay.row.edge].target) == same);
    let all = [
        (true, Sign::Bar, "wait in a location"),
        (around(false), Sign::Arrow, "edge"),
        (around(true), Sign::Loop, "edge back to its location"),
        (true, Sign::Clock, "clock"),
        (strict(1), Sign::Bound, "bound of the location"),
        (strict(0), Sign::Strict, "strict bound: not reached"),
        (stays.iter().any(|stay| stay.stretched), Sign::Dots, "drawn wider than its time: edges at one moment, or nearly"),
    ];
    all.into_iter().filter(|(shown, _, _)| *shown).map(|(_, sign, words)| (sign, words)).collect()
}

/// Each sign with its label; the sample stands left of it.
fn placed(layout: &Layout) -> Vec<(Sign, Label)> {
    let (mut x, y) = (MARGIN, layout.axis + 62.0);
    let mut found = Vec::new();
    for (sign, words) in signs(layout) {
        let words = label(words, (x + SAMPLE + 6.0, y), SIZE, Anchor::Start, Look::Quiet);
        x += SAMPLE + words.width() + 24.0;
        found.push((sign, words));
    }
    found
}

pub fn labels(layout: &Layout) -> Vec<Label> {
    let heading = label(cut(layout.title, TITLE), (MARGIN, MARGIN + 18.0), 18.0, Anchor::Start, Look::Bold);
    let second = label(second_line(layout), (MARGIN, MARGIN + 38.0), 12.0, Anchor::Start, Look::Plain);
    let feet = placed(layout).into_iter().map(|(_, label)| label);
    [heading, second].into_iter().chain(feet).collect()
}

fn sample(sign: Sign, (x, y): (f64, f64), svg: &mut Svg) {
    let (from, to, middle) = ((x, y), (x + SAMPLE, y), x + SAMPLE / 2.0);
    match sign {
        Sign::Bar => svg.rect((x, y - 5.0), (x + SAMPLE, y + 5.0), ""),
        Sign::Arrow => {
            svg.line((middle, y - 8.0), (middle, y + 2.0), "");
            svg.polygon(&[(middle, y + 7.0), (middle - 3.6, y), (middle + 3.6, y)]);
        }
        Sign::Loop => svg.circle((middle, y), 4.5, ""),
        Sign::Clock => svg.polyline(&[(x, y + 5.0), (middle, y - 6.0), (middle, y + 5.0), (x + SAMPLE, y - 6.0)], ""),
        Sign::Bound | Sign::Strict | Sign::Dots => svg.line(from, to, ""),
    }
}

pub fn draw(layout: &Layout, svg: &mut Svg) {
    for (sign, label) in placed(layout) {
        svg.open(match sign {
            Sign::Bar => "fill=\"#0072b2\"",
            Sign::Arrow => "fill=\"#1a1a1a\" stroke=\"#1a1a1a\" stroke-width=\"1.6\"",
            Sign::Loop => "fill=\"#ffffff\" stroke=\"#1a1a1a\" stroke-width=\"1.6\"",
            Sign::Clock => "fill=\"none\" stroke=\"#0072b2\" stroke-width=\"2\"",
            Sign::Bound => "stroke=\"#d55e00\" stroke-width=\"2\"",
            Sign::Strict => "stroke=\"#d55e00\" stroke-width=\"2\" stroke-dasharray=\"5 3\"",
            Sign::Dots => "stroke=\"#1a1a1a\" stroke-width=\"1.5\" stroke-dasharray=\"1.5 3\"",
        });
        sample(sign, (label.x - SAMPLE - 6.0, label.y - 4.0), svg);
        svg.close();
    }
}
