//! From a description to a sheet.

pub mod content;
pub mod cursor;
mod encodings;
pub mod fault;
mod fields;
mod heads;
pub(crate) mod hints;
mod notes;
pub mod tokens;
pub mod told;
pub mod visible;
mod whole;

use crate::sheet::{edition::Edition, Sheet};
use cursor::Cursor;
use fault::{Fault, Place};
use notes::{EdgeNote, LocationNote};

/// What is wrong in a text, and in which line.
#[derive(Clone, Debug, PartialEq, Eq)]
pub struct Mistake {
    pub line: usize,
    pub fault: Fault,
}

impl std::fmt::Display for Mistake {
    fn fmt(&self, f: &mut std::fmt::Formatter) -> std::fmt::Result {
        write!(f, "{}: {}", self.line, self.fault)
    }
}

const WORDS: [&str; 7] = ["clocks", "location", "edge", "cost", "reward", "when", "reset"];

/// The record that a line belongs to, by its place in the sheet.
#[derive(Clone, Copy, Default)]
enum Record {
    #[default]
    None,
    Location(usize),
    Edge(usize),
    /// What it is, is not known after a mistake; its lines are checked for their form alone.
    Lost,
}

/// After a mistake the parts of the sheet that it leaves open are noted, so that nothing is told of them.
#[derive(Default)]
struct Parser {
    sheet: Sheet,
    /// The edition that is asked for, with the line.
    edition: Option<(Edition, usize)>,
    mistakes: Vec<Mistake>,
    record: Record,
    line: usize,
    /// The column behind the last line.
    end: Place,
    /// What is known of each location and edge of the sheet beside its parts.
    locations: Vec<LocationNote>,
    edges: Vec<EdgeNote>,
    /// How many lines begin a location and an edge.
    heads: [usize; 2],
    /// What the open record has been given, with the line.
    given: Vec<(String, usize)>,
    /// A mistake leaves open which clocks there are.
    clocks_lost: bool,
    /// A mistake leaves open whether there are more locations than those that are known.
    locations_lost: bool,
    /// A mistake leaves open which location is the first.
    start_lost: bool,
}

/// After this number of mistakes a text is not read further.
pub const MOST_MISTAKES: usize = 1000;

/// The sheet, or all mistakes in the order of their places.
pub fn parse(text: &str) -> Result<Sheet, Vec<Mistake>> {
    let mut parser = Parser::default();
    for line in text.lines() {
        parser.line += 1;
        parser.end = Place { column: 1 + line.chars().count(), width: 1 };
        if let Err(fault) = parser.statement(&mut Cursor::new(line)) {
            parser.tell(parser.line, fault);
        }
        if parser.mistakes.len() == MOST_MISTAKES {
            return Err(parser.mistakes);
        }
    }
    parser.finish()
}

impl Parser {
    fn tell(&mut self, line: usize, fault: Fault) {
        self.mistakes.push(Mistake { line, fault });
    }

    fn statement(&mut self, cursor: &mut Cursor) -> Result<(), Fault> {
        if cursor.done() {
            return Ok(());
        }
        let word = match cursor.name("clocks, location, edge, cost, reward, when, reset or a bound like x <= 3") {
            Ok(word) => word,
            Err(fault) => {
                self.unread();
                return Err(fault);
            }
        };
        if word == "edition" && !self.is_clock(&word, cursor) {
            return self.edition(cursor);
        }
        if self.sheet.clocks.is_empty() && !self.clocks_lost && word != "clocks" {
            return self.early(&word, cursor);
        }
        self.sentence(&word, cursor)
    }

    fn sentence(&mut self, word: &str, cursor: &mut Cursor) -> Result<(), Fault> {
        let done = match word {
            "clocks" => return self.clocks(cursor),
            "location" => return self.location(cursor),
            "edge" => return self.edge(cursor),
            "cost" => self.cost(cursor),
            "reward" => self.reward(cursor),
            "when" => self.guards(cursor),
            "reset" => self.reset(cursor),
            _ if self.is_clock(word, cursor) => self.bound(word, cursor),
            _ => return self.unknown(word, cursor),
        };
        if done.is_err() {
            self.doubt(cursor);
        }
        done
    }

    /// A line before the clocks. What else is wrong in it is not told.
    fn early(&mut self, word: &str, cursor: &mut Cursor) -> Result<(), Fault> {
        let hint = hints::first_word(word);
        let fault = Fault::new(cursor.place(), format!("'{word}' stands before the clocks"), "a line like: clocks x y");
        let _ = match hint {
            Some("edition") => self.edition(cursor),
            _ => {
                self.clocks_lost = true;
                self.sentence(word, cursor)
            }
        };
        Err(fault.meant(hint))
    }

    /// Whether the word is the name of a clock, or may be one where it is open which clocks there are.
    fn is_clock(&self, word: &str, cursor: &Cursor) -> bool {
        self.sheet.clocks.iter().any(|clock| clock == word) || (self.clocks_lost && cursor.at_sign())
    }

    /// A line that starts with neither a word of the format nor a clock. One that is meant to begin a record is taken for it, so that the
    /// lines below belong to it.
    fn unknown(&mut self, word: &str, cursor: &mut Cursor) -> Result<(), Fault> {
        let hint = hints::word(word, &self.sheet.clocks).map(str::to_string);
        let fault = self.unknown_word(word, cursor.place()).meant(hint.as_deref());
        match hint.as_deref() {
            Some(head @ ("clocks" | "location" | "edge")) => _ = self.sentence(head, cursor),
            Some(field) if WORDS.contains(&field) => self.doubt(cursor),
            Some(_) => self.doubt_all(),
            None => self.unread(),
        }
        Err(fault)
    }

    fn unknown_word(&self, word: &str, place: Place) -> Fault {
        if self.sheet.clocks.is_empty() {
            let expected = "location, edge, cost, reward, when, reset or a bound like x <= 3";
            return Fault::new(place, format!("'{word}' is no word of the format"), expected);
        }
        let clocks = self.sheet.clocks.join(", ");
        let expected = format!("location, edge, cost, reward, when, reset or one of the clocks: {clocks}");
        Fault::new(place, format!("'{word}' is neither a word of the format nor a clock"), expected)
    }
}
