//! Goes through the tokens of a line from left to right.

use super::fault::{Fault, Place};
use super::hints;
use super::tokens::{tokens, Kind, Token};

pub struct Cursor {
    tokens: Vec<Token>,
    /// How many have been given.
    given: usize,
}

/// What was found, where something else was expected.
fn instead(found: &Kind, place: Place, expected: &str) -> Fault {
    match found {
        Kind::Unread(fault) => fault.clone(),
        Kind::Foreign(sign) if hints::no_test(sign) => Fault::new(place, format!("there is no test '{sign}'"), expected),
        Kind::Foreign(sign) => Fault::new(place, format!("'{sign}' is no sign"), expected),
        other => Fault::new(place, format!("found {other}"), expected),
    }
}

impl Cursor {
    pub fn new(line: &str) -> Cursor {
        Cursor { tokens: tokens(line), given: 0 }
    }

    pub fn done(&self) -> bool {
        self.given == self.tokens.len()
    }

    /// The place of the last token that was given.
    pub fn place(&self) -> Place {
        self.tokens[..self.given].last().map_or(Place::default(), |token| token.place)
    }

    /// Whether the line has this name anywhere.
    pub fn names(&self, wanted: &str) -> bool {
        self.tokens.iter().any(|token| matches!(&token.kind, Kind::Name(name) if name == wanted))
    }

    fn coming(&self) -> Option<&Kind> {
        self.tokens.get(self.given).map(|token| &token.kind)
    }

    /// Whether a sign comes next, right or wrong.
    pub fn at_sign(&self) -> bool {
        matches!(self.coming(), Some(Kind::Sign(_) | Kind::Foreign(_)))
    }

    /// Whether this sign comes next.
    pub fn at(&self, wanted: &str) -> bool {
        matches!(self.coming(), Some(Kind::Sign(sign)) if *sign == wanted)
    }

    fn next(&mut self) -> Option<Kind> {
        let kind = self.coming().cloned()?;
        self.given += 1;
        Some(kind)
    }

    fn wrong(&self, found: Option<Kind>, expected: &str) -> Fault {
        match found {
            Some(kind) => instead(&kind, self.place(), expected),
            None => Fault::new(self.place().behind(), "found the end of the line", expected),
        }
    }

    pub fn name(&mut self, expected: &str) -> Result<String, Fault> {
        match self.next() {
            Some(Kind::Name(name)) => Ok(name),
            other => Err(self.wrong(other, expected)),
        }
    }

    pub fn number(&mut self, expected: &str) -> Result<i64, Fault> {
        match self.next() {
            Some(Kind::Number(number)) => Ok(number),
            other => Err(self.wrong(other, expected)),
        }
    }

    /// One of the signs.
    pub fn sign(&mut self, signs: &[&str], expected: &str) -> Result<&'static str, Fault> {
        let found = self.next();
        let hint = match &found {
            Some(Kind::Sign(sign)) if signs.contains(sign) => return Ok(sign),
            Some(Kind::Sign(sign) | Kind::Foreign(sign)) => hints::sign(sign, signs),
            Some(Kind::Name(name)) => hints::sign(name, signs),
            _ => None,
        };
        let fault = self.wrong(found, expected);
        Err(if hint.is_some() { fault.meant(hint) } else { fault })
    }

    pub fn end(&mut self, after: &str) -> Result<(), Fault> {
        match self.next() {
            None => Ok(()),
            other => Err(self.wrong(other, &format!("nothing after {after}"))),
        }
    }
}
