//! Labels, and how much room their letters take.

use super::svg::Point;
use std::f64::consts::FRAC_1_SQRT_2;

#[derive(Clone, Copy, Debug, PartialEq, Eq)]
pub enum Anchor {
    Start,
    Middle,
    End,
}

#[derive(Clone, Copy, Debug, PartialEq, Eq)]
pub enum Look {
    Plain,
    Bold,
    Quiet,
    /// On a dark bar.
    Light,
    /// Over lines, on a white seam.
    Seam,
}

impl Look {
    pub fn attributes(self) -> &'static str {
        match self {
            Look::Plain => "fill=\"#1a1a1a\"",
            Look::Bold => "fill=\"#1a1a1a\" font-weight=\"bold\"",
            Look::Quiet => "fill=\"#595959\"",
            Look::Light => "fill=\"#ffffff\"",
            Look::Seam => "fill=\"#404040\" stroke=\"#ffffff\" stroke-width=\"3\" paint-order=\"stroke\"",
        }
    }
}

/// A text on one line. Its anchor lies on the baseline.
#[derive(Clone, Debug, PartialEq)]
pub struct Label {
    pub text: String,
    /// What is shown where one points at it; nothing where it is empty.
    pub hint: String,
    pub x: f64,
    pub y: f64,
    pub size: f64,
    pub anchor: Anchor,
    /// By 45 degrees, so that the text comes down to its anchor.
    pub turned: bool,
    pub look: Look,
    /// In the second pass of the cycle.
    pub again: bool,
}

/// A label at a point; the rest is set by its maker.
pub fn label(text: impl Into<String>, (x, y): Point, size: f64, anchor: Anchor, look: Look) -> Label {
    Label { text: text.into(), hint: String::new(), x, y, size, anchor, turned: false, look, again: false }
}

impl Label {
    pub fn width(&self) -> f64 {
        width(&self.text, self.size) * if self.look == Look::Bold { 1.12 } else { 1.0 }
    }

    /// The box around the letters.
    pub fn corners(&self) -> [Point; 4] {
        let wide = self.width();
        let left = match self.anchor {
            Anchor::Start => 0.0,
            Anchor::Middle => -wide / 2.0,
            Anchor::End => -wide,
        };
        let (above, below) = (-0.88 * self.size, 0.24 * self.size);
        [(left, above), (left + wide, above), (left + wide, below), (left, below)].map(|(x, y)| match self.turned {
            false => (self.x + x, self.y + y),
            true => (self.x + (x - y) * FRAC_1_SQRT_2, self.y + (x + y) * FRAC_1_SQRT_2),
        })
    }
}

/// In ems, of the wider ones among the usual fonts without serifs.
fn em(sign: char) -> f64 {
    match sign {
        'i' | 'j' | 'l' | '\'' | '|' | '.' | ',' | ' ' => 0.33,
        'f' | 'r' | 't' | 'I' | '-' | ':' | ';' | '/' | '(' | ')' => 0.42,
        'm' | 'M' | 'W' | '%' | '@' => 1.0,
        'w' | '<' | '>' | '=' | '+' => 0.85,
        'A'..='Z' => 0.78,
        _ if sign.is_ascii() => 0.65,
        _ => 1.0,
    }
}

pub fn width(text: &str, size: f64) -> f64 {
    text.chars().map(em).sum::<f64>() * size
}

/// A name of at most this number of signs. A longer one has an ellipsis in its middle, as like names often differ at the end.
pub fn cut(name: &str, most: usize) -> String {
    let signs: Vec<char> = name.chars().collect();
    if signs.len() <= most {
        return name.to_string();
    }
    let (head, tail) = (most / 2, most.saturating_sub(most / 2 + 1));
    signs[..head].iter().chain(&['\u{2026}']).chain(&signs[signs.len() - tail..]).collect()
}
