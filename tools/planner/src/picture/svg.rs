//! Writing SVG: elements, numbers, and text with the signs of XML escaped.

use super::letters::{Anchor, Label};
use std::fmt::Write;

/// Right and down from the upper left corner, in pixels.
pub type Point = (f64, f64);

pub struct Svg {
    text: String,
}

/// With at most two places after the point. What is no number is 0.
fn number(value: f64) -> String {
    let value = if value.is_finite() { (value * 100.0).round() / 100.0 } else { 0.0 };
    format!("{}", value + 0.0)
}

/// Signs that XML does not admit become a question mark.
pub fn escaped(text: &str) -> String {
    let mut found = String::new();
    for sign in text.chars() {
        match sign {
            '&' => found.push_str("&amp;"),
            '<' => found.push_str("&lt;"),
            '>' => found.push_str("&gt;"),
            '"' => found.push_str("&quot;"),
            '\t' | '\n' | '\r' => found.push(' '),
            '\0'..='\x1f' | '\u{fffe}' | '\u{ffff}' => found.push('?'),
            _ => found.push(sign),
        }
    }
    found
}

fn titled(hint: &str) -> String {
    if hint.is_empty() {
        String::new()
    } else {
        format!("<title>{}</title>", escaped(hint))
    }
}

fn listed(points: &[Point]) -> String {
    points.iter().map(|(x, y)| format!("{},{}", number(*x), number(*y))).collect::<Vec<_>>().join(" ")
}

impl Svg {
    /// A page of this size on a white ground.
    pub fn new(width: f64, height: f64, title: &str) -> Svg {
        let (w, h) = (number(width), number(height));
        let mut text = String::from("<?xml version=\"1.0\" encoding=\"UTF-8\"?>\n");
        let _ = writeln!(
            text,
            "<svg xmlns=\"http://www.w3.org/2000/svg\" width=\"{w}\" height=\"{h}\" viewBox=\"0 0 {w} {h}\" font-family=\"sans-serif\">"
        );
        let _ = writeln!(text, "{}\n<rect x=\"0\" y=\"0\" width=\"{w}\" height=\"{h}\" fill=\"#ffffff\"/>", titled(title));
        Svg { text }
    }

    pub fn finish(mut self) -> String {
        self.text.push_str("</svg>\n");
        self.text
    }

    /// Opens a group. The attributes are the caller's own words, not input.
    pub fn open(&mut self, attributes: &str) {
        let _ = writeln!(self.text, "<g {attributes}>");
    }

    pub fn close(&mut self) {
        self.text.push_str("</g>\n");
    }

    fn element(&mut self, name: &str, attributes: &str, hint: &str) {
        let _ = match titled(hint) {
            none if none.is_empty() => writeln!(self.text, "<{name} {attributes}/>"),
            title => writeln!(self.text, "<{name} {attributes}>{title}</{name}>"),
        };
    }

    /// From one corner to the opposite one.
    pub fn rect(&mut self, from: Point, to: Point, hint: &str) {
        let size = [from.0, from.1, (to.0 - from.0).max(0.0), (to.1 - from.1).max(0.0)].map(number);
        let [x, y, width, height] = size;
        self.element("rect", &format!("x=\"{x}\" y=\"{y}\" width=\"{width}\" height=\"{height}\""), hint);
    }

    pub fn line(&mut self, from: Point, to: Point, hint: &str) {
        let [x1, y1, x2, y2] = [from.0, from.1, to.0, to.1].map(number);
        self.element("line", &format!("x1=\"{x1}\" y1=\"{y1}\" x2=\"{x2}\" y2=\"{y2}\""), hint);
    }

    pub fn polyline(&mut self, points: &[Point], hint: &str) {
        self.element("polyline", &format!("points=\"{}\"", listed(points)), hint);
    }

    pub fn polygon(&mut self, points: &[Point]) {
        self.element("polygon", &format!("points=\"{}\"", listed(points)), "");
    }

    pub fn circle(&mut self, (x, y): Point, radius: f64, hint: &str) {
        let [x, y, r] = [x, y, radius].map(number);
        self.element("circle", &format!("cx=\"{x}\" cy=\"{y}\" r=\"{r}\""), hint);
    }

    pub fn label(&mut self, label: &Label) {
        let [x, y, size] = [label.x, label.y, label.size].map(number);
        let mut attributes = format!("x=\"{x}\" y=\"{y}\" font-size=\"{size}\" {}", label.look.attributes());
        match label.anchor {
            Anchor::Start => {}
            Anchor::Middle => attributes.push_str(" text-anchor=\"middle\""),
            Anchor::End => attributes.push_str(" text-anchor=\"end\""),
        }
        if label.turned {
            let _ = write!(attributes, " transform=\"rotate(45 {x} {y})\"");
        }
        if label.again {
            attributes.push_str(" fill-opacity=\"0.6\"");
        }
        let _ = writeln!(self.text, "<text {attributes}>{}{}</text>", escaped(&label.text), titled(&label.hint));
    }
}
