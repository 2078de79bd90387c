//! The lanes: a row for each location, and the time spent there as bars.

use super::layout::{Layout, NAME};
use super::letters::{cut, label, width, Anchor, Label, Look};
use super::svg::Svg;
use super::timeline::Stay;

const SIZE: f64 = 12.0;
/// Half the height of a bar, and of a wait of 0.
const BAR: f64 = 8.0;
const THIN: f64 = 1.5;

/// What the names take at the left.
pub fn room(layout: &Layout) -> f64 {
    let names = layout.sheet.locations.iter().map(|location| width(&cut(&location.name, NAME), SIZE));
    names.fold(0.0, f64::max) + 10.0
}

fn names(layout: &Layout) -> Vec<Label> {
    let mut labels = Vec::new();
    for (i, location) in layout.sheet.locations.iter().enumerate() {
        let (name, lane) = (&location.name, layout.lane(i));
        let at = (layout.left - 8.0, lane + 4.0);
        labels.push(Label { hint: name.clone(), ..label(cut(name, NAME), at, SIZE, Anchor::End, Look::Plain) });
        let again = |x: &f64| label(cut(name, NAME), (layout.left + x + 3.0, lane - 13.0), 9.0, Anchor::Start, Look::Seam);
        labels.extend(layout.waymarks.iter().map(again));
    }
    labels
}

/// The wait in units, where the bar has room for it.
fn wait(layout: &Layout, stay: &Stay) -> Option<Label> {
    let words = layout.line.units(stay.row.wait);
    let at = (layout.left + (stay.from + stay.to) / 2.0, layout.lane(stay.row.location) + 4.0);
    let fits = stay.row.wait > 0 && width(&words, 11.0) + 6.0 <= stay.to - stay.from;
    let look = if stay.again { Look::Plain } else { Look::Light };
    fits.then(|| label(words, at, 11.0, Anchor::Middle, look))
}

pub fn labels(layout: &Layout) -> Vec<Label> {
    let mut labels = names(layout);
    labels.extend(layout.line.stays.iter().filter_map(|stay| wait(layout, stay)));
    labels
}

fn bar(layout: &Layout, stay: &Stay, svg: &mut Svg) {
    let (row, line, y) = (stay.row, &layout.line, layout.lane(stay.row.location));
    let name = &layout.sheet.locations[row.location].name;
    let hint = format!("{name}: from {} to {}, waits {}", line.units(stay.start), line.units(stay.end), line.counted(row.wait));
    let half = if row.wait > 0 { BAR } else { THIN };
    svg.rect((layout.left + stay.from, y - half), (layout.left + stay.to, y + half), &hint);
}

/// The lines between lanes.
pub fn ground(layout: &Layout, svg: &mut Svg) {
    svg.open("stroke=\"#d9d9d9\" stroke-width=\"1\"");
    for i in 0..=layout.sheet.locations.len() {
        let y = layout.lanes_top + i as f64 * layout.lane_height;
        svg.line((layout.left, y), (layout.right(), y), "");
    }
    svg.close();
}

pub fn draw(layout: &Layout, svg: &mut Svg) {
    for (again, fill) in [(false, "#0072b2"), (true, "#a6cfe8")] {
        svg.open(&format!("fill=\"{fill}\""));
        for stay in layout.line.stays.iter().filter(|stay| stay.again == again) {
            bar(layout, stay, svg);
        }
        svg.close();
    }
}
