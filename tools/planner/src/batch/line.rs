//! The line of one item.

use super::items::Item;
use crate::input::{bytes, held, of_bytes, shown, Held};
use crate::json::{list, string, Object};
use crate::plan::{json::json, planned, Buffers, Outcome};
use crate::sheet::hex::from_hex;
use crate::stop::{Stop, DONE, MISTAKEN, REFUSED};
use crate::text::{told::TOLD, Mistake};

pub struct Line {
    pub json: String,
    /// What it counts as at the end.
    pub answer: String,
    /// The exit status that it would have by itself.
    pub status: u8,
}

fn mistake(found: &Mistake) -> String {
    let hint = found.fault.hint.as_ref().map_or("null".to_string(), |hint| string(hint));
    let object = Object::new().value("line", found.line).value("column", found.fault.place.column);
    object.text("what", &found.fault.what).text("expected", &found.fault.expected).value("hint", hint).end()
}

fn mistakes(name: &str, found: &[Mistake]) -> Line {
    let listed = list(found.iter().take(TOLD).map(mistake));
    let object = Object::new().text("file", name).text("answer", "mistakes").value("mistakes", listed);
    let json = object.value("more", found.len().saturating_sub(TOLD)).end();
    Line { json, answer: "with mistakes".to_string(), status: MISTAKEN }
}

/// A file that cannot be read, or a difference.
fn stopped(name: &str, answer: &str, stop: Stop) -> Line {
    let json = Object::new().text("file", name).text("answer", answer).text("message", stop.message().trim_end()).end();
    Line { json, answer: answer.to_string(), status: stop.status() }
}

fn answered(buffers: &mut Buffers, held: &Held) -> Line {
    match planned(buffers, held, None) {
        Err(stop) => stopped(held.name(), "difference", stop),
        Ok(outcome) => {
            let (answer, status) = match &outcome {
                Outcome::Planned(_) => ("planned".to_string(), DONE),
                Outcome::Coarse { .. } => ("with no run".to_string(), REFUSED),
                Outcome::Refused { refusal, .. } => (format!("refused {}", refusal.number()), REFUSED),
            };
            Line { json: json(held, &outcome), answer, status }
        }
    }
}

pub fn line(buffers: &mut Buffers, item: Item) -> Line {
    match item {
        Item::Unread(name, why) => stopped(&name, "unreadable", Stop::Stream(format!("{name}: {why}"))),
        Item::File(path) => match bytes(&path) {
            Err(stop) => stopped(&shown(&path), "unreadable", stop),
            Ok(bytes) => match held(shown(&path), bytes) {
                Err(found) => mistakes(&found.name, &found.mistakes),
                Ok(held) => answered(buffers, &held),
            },
        },
        Item::Line(number, text) => {
            let name = format!("standard input:{number}");
            match from_hex(&String::from_utf8_lossy(&text)) {
                Err(found) => mistakes(&name, &[Mistake { line: number, ..found }]),
                Ok(bytes) => answered(buffers, &of_bytes(name, bytes)),
            }
        }
    }
}
