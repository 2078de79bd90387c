//! Mistakes as they are told.

use super::fault::Place;
use super::visible::visible;
use super::{Mistake, MOST_MISTAKES};

/// How many mistakes are told.
pub const TOLD: usize = 10;
/// The longest line that is shown as a whole, in characters.
const WIDE: usize = 120;

/// Each of the first mistakes as FILE:LINE, with the line and what is wrong in it marked below; then how many more there are.
pub fn told(name: &str, text: &str, mistakes: &[Mistake]) -> String {
    let name: String = name.chars().map(visible).collect();
    let mut lines = Vec::new();
    for mistake in mistakes.iter().take(TOLD) {
        let message: String = mistake.to_string().chars().map(visible).collect();
        lines.push(format!("{name}:{message}"));
        lines.extend(marked(text, mistake));
    }
    match mistakes.len().saturating_sub(TOLD) {
        0 => {}
        1 => lines.push(format!("{name}: 1 more mistake")),
        more if mistakes.len() >= MOST_MISTAKES => lines.push(format!("{name}: {more} more mistakes at least")),
        more => lines.push(format!("{name}: {more} more mistakes")),
    }
    lines.join("\n")
}

/// The line and the marks below it, where there is such a line.
fn marked(text: &str, mistake: &Mistake) -> Vec<String> {
    let Some(line) = mistake.line.checked_sub(1).and_then(|before| text.lines().nth(before)) else { return Vec::new() };
    let (line, place) = cut(&line.chars().map(visible).collect::<Vec<_>>(), mistake.fault.place);
    let number = mistake.line.to_string();
    let (blank, marks) = (" ".repeat(number.len()), "^".repeat(place.width));
    let shown = format!("  {number} | {line}").trim_end().to_string();
    vec![shown, format!("  {blank} | {}{marks}", " ".repeat(place.column - 1))]
}

/// Of a wide line the part around the place, and the place in it.
fn cut(line: &[char], place: Place) -> (String, Place) {
    let column = place.column.clamp(1, line.len() + 1);
    let begin = if line.len() > WIDE { (column - 1).saturating_sub(WIDE / 2).min(line.len() - WIDE) } else { 0 };
    let end = line.len().min(begin + WIDE);
    let (before, after) = (if begin > 0 { "..." } else { "" }, if end < line.len() { "..." } else { "" });
    let part: String = line[begin..end].iter().collect();
    let width = place.width.min((end + 1).saturating_sub(column)).max(1);
    (format!("{before}{part}{after}"), Place { column: column - begin + before.len(), width })
}
