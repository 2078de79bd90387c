//! Files and streams, read in full where they are not too long.

use crate::sheet::{decode::decode, encode::encode, refusal::Refusal, Sheet};
use crate::source::Source;
use crate::stop::Stop;
use crate::text::content::{content, Content};
use crate::text::fault::{Fault, Place};
use crate::text::{parse, told::told, visible::visible, Mistake};
use std::ffi::OsStr;
use std::io::Read;

/// No description and no certificate is longer; of a longer input only so much is read.
pub const LONGEST_INPUT: u64 = 1_000_000;

/// What a file holds.
#[derive(Debug)]
pub enum Held {
    Sheet(Source),
    /// Bytes that are no sheet, and why.
    Refused {
        name: String,
        refusal: Refusal,
        bytes: Vec<u8>,
    },
}

impl Held {
    pub fn name(&self) -> &str {
        match self {
            Held::Sheet(source) => &source.name,
            Held::Refused { name, .. } => name,
        }
    }

    pub fn sheet(&self) -> Option<&Sheet> {
        match self {
            Held::Sheet(source) => Some(&source.sheet),
            Held::Refused { .. } => None,
        }
    }
}

/// The name as it is printed.
pub fn shown(path: &OsStr) -> String {
    match path.to_str() {
        Some("-") => "standard input".to_string(),
        _ => path.to_string_lossy().chars().map(visible).collect(),
    }
}

fn unread(path: &OsStr, error: std::io::Error) -> Stop {
    Stop::Stream(format!("{}: cannot be read: {error}", shown(path)))
}

/// The bytes of a file, or of standard input for "-".
pub fn bytes(path: &OsStr) -> Result<Vec<u8>, Stop> {
    let stream: Box<dyn Read> = match path.to_str() {
        Some("-") => Box::new(std::io::stdin()),
        _ => Box::new(std::fs::File::open(path).map_err(|error| unread(path, error))?),
    };
    let mut found = Vec::new();
    stream.take(LONGEST_INPUT + 1).read_to_end(&mut found).map_err(|error| unread(path, error))?;
    if found.len() as u64 > LONGEST_INPUT {
        return Err(Stop::Stream(format!("{}: is longer than 1 MB, and was not read further", shown(path))));
    }
    Ok(found)
}

/// A text that is no description of a sheet: a run or a certificate.
pub fn text(path: &OsStr) -> Result<String, Stop> {
    let bytes = bytes(path)?;
    match content(&bytes) {
        Content::Text(text) => Ok(text),
        Content::Wrong(mistake, text) => Err(Stop::Mistakes(told(&shown(path), &text, &[mistake]))),
        Content::Bytes => Err(Stop::Mistakes(format!("{}:1: the file is no text; expected a text", shown(path)))),
    }
}

/// A text with what is wrong in it.
#[derive(Debug)]
pub struct Mistaken {
    pub name: String,
    pub text: String,
    pub mistakes: Vec<Mistake>,
}

impl From<Mistaken> for Stop {
    fn from(found: Mistaken) -> Stop {
        Stop::Mistakes(told(&found.name, &found.text, &found.mistakes))
    }
}

fn is_hexadecimal(text: &str) -> bool {
    !text.trim().is_empty() && text.chars().all(|c| c.is_ascii_hexdigit() || c.is_whitespace())
}

/// What bytes hold, a description or a sheet, told by content.
pub fn held(name: String, bytes: Vec<u8>) -> Result<Held, Mistaken> {
    match content(&bytes) {
        Content::Text(text) if is_hexadecimal(&text) => {
            let fault = Fault::new(Place::default(), "the file holds hexadecimal digits", "a description or a sheet's bytes");
            let mistakes = vec![Mistake { line: 1, fault: fault.meant(Some("planner unhex")) }];
            Err(Mistaken { name, text, mistakes })
        }
        Content::Text(text) => match parse(&text) {
            Ok(sheet) => Ok(Held::Sheet(Source { name, bytes: encode(&sheet), sheet })),
            Err(mistakes) => Err(Mistaken { name, text, mistakes }),
        },
        Content::Wrong(mistake, text) => Err(Mistaken { name, text, mistakes: vec![mistake] }),
        Content::Bytes => Ok(of_bytes(name, bytes)),
    }
}

/// The sheet that bytes are, or why they are none.
pub fn of_bytes(name: String, bytes: Vec<u8>) -> Held {
    match decode(&bytes) {
        Ok(sheet) => Held::Sheet(Source { name, sheet, bytes }),
        Err(refusal) => Held::Refused { name, refusal, bytes },
    }
}

pub fn sheet(path: &OsStr) -> Result<Held, Stop> {
    Ok(held(shown(path), bytes(path)?)?)
}
