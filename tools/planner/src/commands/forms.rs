//! `planner encode`, `decode`, `hex` and `unhex`: a sheet in another form.

use super::file;
use crate::input::{self, Held};
use crate::sheet::describe::describe;
use crate::sheet::hex::{from_hex, to_hex};
use crate::stop::{Answer, Stop};
use crate::text::content::{content, Content};
use crate::text::told::told;
use crate::usage::Command;
use crate::words::Words;

pub fn in_other_form(command: &Command, words: &Words) -> Result<Answer, Stop> {
    let path = file(words);
    let held = match command.name {
        "encode" | "hex" => input::sheet(path)?,
        "decode" => {
            let (name, bytes) = (input::shown(path), input::bytes(path)?);
            if !bytes.is_empty() && matches!(content(&bytes), Content::Text(_)) {
                return Err(Stop::Mistakes(format!("{name}:1: the file is a text; expected the bytes of a sheet")));
            }
            input::of_bytes(name, bytes)
        }
        _ => {
            let (name, text) = (input::shown(path), input::text(path)?);
            let bytes = from_hex(&text).map_err(|mistake| Stop::Mistakes(told(&name, &text, &[mistake])))?;
            input::of_bytes(name, bytes)
        }
    };
    // standard output is for the sheet alone
    let source = match held {
        Held::Sheet(source) => source,
        Held::Refused { name, refusal, .. } => return Err(Stop::NoSheet(format!("{name}: {refusal}"))),
    };
    Ok(Answer::done(match command.name {
        "encode" => source.bytes,
        "hex" => format!("{}\n", to_hex(&source.bytes)).into_bytes(),
        _ => describe(&source.sheet).into_bytes(),
    }))
}
