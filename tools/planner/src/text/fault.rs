//! What is wrong, where in its line, what was expected, and what may have been meant.

use std::fmt::{Display, Formatter};

/// A part of a line, in characters; the first column is 1, and the width at least 1.
#[derive(Clone, Copy, Debug, PartialEq, Eq)]
pub struct Place {
    pub column: usize,
    pub width: usize,
}

impl Default for Place {
    /// The beginning of the line.
    fn default() -> Place {
        Place { column: 1, width: 1 }
    }
}

impl Place {
    /// From the beginning of this to the end of the other.
    pub fn to(self, other: Place) -> Place {
        Place { column: self.column, width: (other.column + other.width).saturating_sub(self.column).max(1) }
    }

    /// The column behind.
    pub fn behind(self) -> Place {
        Place { column: self.column + self.width, width: 1 }
    }
}

#[derive(Clone, Debug, PartialEq, Eq)]
pub struct Fault {
    pub what: String,
    pub expected: String,
    pub place: Place,
    /// What may have been meant, in quotes.
    pub hint: Option<String>,
}

impl Fault {
    pub fn new(place: Place, what: impl Into<String>, expected: impl Into<String>) -> Fault {
        Fault { what: what.into(), expected: expected.into(), place, hint: None }
    }

    /// With a hint, where there is one.
    pub fn meant(self, hint: Option<&str>) -> Fault {
        Fault { hint: hint.map(|hint| format!("'{hint}'")), ..self }
    }
}

impl Display for Fault {
    fn fmt(&self, f: &mut Formatter) -> std::fmt::Result {
        write!(f, "{}; expected {}", self.what, self.expected)?;
        match &self.hint {
            Some(hint) => write!(f, "; did you mean {hint}?"),
            None => Ok(()),
        }
    }
}

/// A fault at a place of the line.
pub fn wrong<T>(place: Place, what: impl Into<String>, expected: impl Into<String>) -> Result<T, Fault> {
    Err(Fault::new(place, what, expected))
}

/// A fault of the line as a whole.
pub fn fault<T>(what: impl Into<String>, expected: impl Into<String>) -> Result<T, Fault> {
    wrong(Place::default(), what, expected)
}
