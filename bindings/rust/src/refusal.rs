//! Why a sheet is refused.

use std::fmt;
use std::num::NonZeroU8;

/// A refusal: the number of the first question that is answered no.
#[derive(Clone, Copy, Debug, PartialEq, Eq, Hash)]
pub struct Refusal(NonZeroU8);

impl Refusal {
    /// Of the library's answer, where 0 is no refusal.
    pub(crate) fn of(answer: u8) -> Result<(), Refusal> {
        match NonZeroU8::new(answer) {
            None => Ok(()),
            Some(number) => Err(Refusal(number)),
        }
    }

    /// The question's number, 1 to 18.
    pub fn number(self) -> u8 {
        self.0.get()
    }

    /// What the question asks.
    pub fn question(self) -> &'static str {
        match self.number() {
            1 => "Has each buffer at least 2,048 entries, those of a work plan 2,049?",
            2 => "Is the length 4 to 656?",
            3 => "Is the edition 1 or 2?",
            4 => "Are the counts of locations, clocks and edges in range?",
            5 => "Are the bytes of each record there?",
            6 => "Are only permitted bits set in each record's map?",
            7 => "Does a bound stand for each clock of each location?",
            8 => "Is each field in range?",
            9 => "Are source and target of each edge locations?",
            10 => "Has every byte been used?",
            11 => "Do the bounds of location 0 admit all clocks at 0?",
            12 => "Are at most 2,048 nodes reachable?",
            13 => "Is a cycle with reward above 0 reachable?",
            14 => "Does every reachable cycle without reward cost 0 or more?",
            15 => "Is the number that of a node of this sheet?",
            16 => "Is the code allowed there?",
            17 => "Is each edge entered once?",
            18 => "Is no bound and no guard strict?",
            _ => "No question has this number.",
        }
    }
}

impl fmt::Display for Refusal {
    fn fmt(&self, f: &mut fmt::Formatter<'_>) -> fmt::Result {
        write!(f, "refused {}: {}", self.number(), self.question())
    }
}

impl std::error::Error for Refusal {}
