//! The stem, the cycle and its second pass: shaded, and named in a strip above.

use super::layout::Layout;
use super::letters::{label, Anchor, Label, Look};
use super::svg::Svg;

const SIZE: f64 = 12.0;
const ROW: f64 = 17.0;
/// The bar below the names.
const BAR: f64 = 5.0;

struct Part {
    words: String,
    from: f64,
    to: f64,
    look: Look,
    shade: &'static str,
    bar: &'static str,
}

fn parts(layout: &Layout) -> Vec<Part> {
    let line = &layout.line;
    let (end, last) = (line.stays.len(), layout.cycle.time);
    let part = |words: String, from: usize, to: usize, look, shade, bar| {
        (from < to).then(|| Part { words, from: line.begin(from), to: line.begin(to), look, shade, bar })
    };
    let every = format!("repeats, every {}", line.counted(last));
    let found = [
        part("once".to_string(), 0, line.stem, Look::Quiet, "#ffffff", "#bfbfbf"),
        part(every, line.stem, line.once.min(end), Look::Bold, "#fdeecb", "#e69f00"),
        part("again".to_string(), line.once, end, Look::Quiet, "#fef8e8", "#f5d490"),
    ];
    found.into_iter().flatten().collect()
}

/// The row of each name. One that runs into the next part stands higher than that part's name.
fn rows(layout: &Layout, parts: &[Part]) -> Vec<usize> {
    let mut rows = vec![0; parts.len()];
    for i in (0..parts.len()).rev() {
        let end = named(layout, &parts[i], 0).width() + parts[i].from + 10.0;
        let over = (i + 1..parts.len()).filter(|k| parts[*k].from < end);
        rows[i] = over.map(|k| rows[k] + 1).max().unwrap_or(0);
    }
    rows
}

fn named(layout: &Layout, part: &Part, row: usize) -> Label {
    let y = layout.strip - BAR - 5.0 - row as f64 * ROW;
    label(part.words.clone(), (layout.left + part.from + 3.0, y), SIZE, Anchor::Start, part.look)
}

/// What the strip takes.
pub fn height(layout: &Layout) -> f64 {
    let rows = rows(layout, &parts(layout)).into_iter().max().unwrap_or(0);
    (rows as f64 + 1.0) * ROW + BAR + 3.0
}

/// The name again at the waymarks of a long part.
fn again<'a>(layout: &'a Layout, part: &'a Part) -> impl Iterator<Item = Label> + 'a {
    let room = named(layout, part, 0).width() + 20.0;
    let inside = move |x: &&f64| **x > part.from + room && **x + room < part.to;
    layout.waymarks.iter().filter(inside).map(|x| Label { x: layout.left + x + 3.0, look: Look::Quiet, ..named(layout, part, 0) })
}

pub fn labels(layout: &Layout) -> Vec<Label> {
    let parts = parts(layout);
    let first = parts.iter().zip(rows(layout, &parts)).map(|(part, row)| named(layout, part, row));
    first.chain(parts.iter().flat_map(|part| again(layout, part))).collect()
}

pub fn draw(layout: &Layout, svg: &mut Svg) {
    let parts = parts(layout);
    for (part, row) in parts.iter().zip(rows(layout, &parts)) {
        let (from, to) = (layout.left + part.from, layout.left + part.to);
        svg.open(&format!("fill=\"{}\"", part.shade));
        svg.rect((from, layout.strip), (to, layout.axis), "");
        svg.close();
        svg.open(&format!("fill=\"{}\"", part.bar));
        svg.rect((from, layout.strip - BAR), (to - 1.5, layout.strip), &part.words);
        svg.rect((from, layout.strip - BAR - row as f64 * ROW), (from + 1.5, layout.strip), "");
        svg.close();
    }
    borders(layout, &parts, svg);
}

/// Lines through lanes and clocks where a part begins, and where the last one ends.
fn borders(layout: &Layout, parts: &[Part], svg: &mut Svg) {
    svg.open("stroke=\"#8a6100\" stroke-width=\"1\" stroke-dasharray=\"2 3\"");
    for x in parts.iter().skip(1).map(|part| part.from).chain(parts.last().map(|part| part.to)) {
        svg.line((layout.left + x, layout.lanes_top), (layout.left + x, layout.axis), "");
    }
    svg.close();
}
