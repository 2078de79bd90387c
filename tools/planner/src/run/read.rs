//! From the text of a run to its delays and edges.

use super::{replay, Loop, Member, Run, FINEST};
use crate::sheet::Sheet;
use crate::text::cursor::Cursor;
use crate::text::fault::{wrong, Fault, Place};
use crate::text::hints::nearest;
use crate::text::Mistake;

/// The longest delay that a line may give, in nths.
const LONGEST_DELAY: i64 = 1_000_000;

/// The words that begin the lines of a run.
const WORDS: [&str; 4] = ["nths", "delay", "edge", "loop"];

/// A line, and what in it is meant.
type At = (usize, Place);

/// A run with the place of each member, and the end.
#[derive(Debug, PartialEq, Eq)]
pub struct Read {
    pub run: Run,
    places: Vec<At>,
}

/// Why there is no loop to price.
#[derive(Debug, PartialEq, Eq)]
pub enum Wrong {
    /// The text is no run.
    Text(Mistake),
    /// The run is not one of this sheet, or does not come back.
    Run(Mistake),
}

struct Reader<'a> {
    sheet: &'a Sheet,
    /// 0 until it is settled.
    nths: i64,
    members: Vec<Member>,
    places: Vec<At>,
    before: Option<usize>,
}

pub fn read(sheet: &Sheet, text: &str) -> Result<Read, Mistake> {
    let mut reader = Reader { sheet, nths: 0, members: Vec::new(), places: Vec::new(), before: None };
    let mut last = (1, Place::default());
    for (i, line) in text.lines().enumerate() {
        last = (i + 1, Place { column: 1 + line.chars().count(), width: 1 });
        reader.statement(line, i + 1).map_err(|fault| Mistake { line: i + 1, fault })?;
    }
    let before = reader.whole(last.1).map_err(|fault| Mistake { line: last.0, fault })?;
    reader.places.push(last);
    Ok(Read { run: Run { nths: reader.nths.max(1), members: reader.members, before }, places: reader.places })
}

/// Reads a run and replays it.
pub fn priced(sheet: &Sheet, text: &str) -> Result<Loop, Wrong> {
    let read = read(sheet, text).map_err(Wrong::Text)?;
    replay(sheet, &read.run).map(|found| found.around).map_err(|wrong| {
        let (line, place) = read.places[wrong.place];
        Wrong::Run(Mistake { line, fault: Fault { place, ..wrong.fault } })
    })
}

impl Reader<'_> {
    fn statement(&mut self, line: &str, at: usize) -> Result<(), Fault> {
        let mut cursor = Cursor::new(line);
        if cursor.done() {
            return Ok(());
        }
        let word = cursor.name("nths, delay, edge or loop")?;
        if word != "nths" && self.nths == 0 {
            self.nths = 1;
        }
        match word.as_str() {
            "nths" => self.nths(cursor.number("how many nths make a unit")?, cursor.place())?,
            "delay" => self.delay(cursor.number("a delay in nths")?, cursor.place())?,
            "edge" => self.edge(&cursor.name("the name of an edge")?, cursor.place())?,
            "loop" if self.before.is_some() => return wrong(cursor.place(), "a second 'loop'", "one, where the loop begins"),
            "loop" => self.before = Some(self.members.len()),
            _ => {
                let fault = Fault::new(cursor.place(), format!("'{word}' is no word of a run"), "nths, delay, edge or loop");
                return Err(fault.meant(nearest(&word, WORDS.into_iter())));
            }
        }
        self.places.resize(self.members.len(), (at, cursor.place()));
        cursor.end(&format!("the {word}"))
    }

    fn nths(&mut self, n: i64, place: Place) -> Result<(), Fault> {
        if !(1..=FINEST).contains(&n) {
            return wrong(place, format!("{n} nths"), "1 to 1000");
        }
        if self.nths != 0 {
            return wrong(place, "'nths' comes late or twice", "'nths' once, before every delay, edge and loop");
        }
        self.nths = n;
        Ok(())
    }

    fn delay(&mut self, nths: i64, place: Place) -> Result<(), Fault> {
        if !(0..=LONGEST_DELAY).contains(&nths) {
            return wrong(place, format!("a delay of {nths}"), "0 to 1000000 nths");
        }
        self.members.push(Member::Delay(nths));
        Ok(())
    }

    fn edge(&mut self, name: &str, place: Place) -> Result<(), Fault> {
        let names = || self.sheet.edges.iter().map(|edge| edge.name.as_str());
        let Some(i) = names().position(|edge| edge == name) else {
            let fault = Fault::new(place, format!("'{name}' is no edge"), "the name of an edge of the sheet");
            return Err(fault.meant(nearest(name, names())));
        };
        self.members.push(Member::Edge(i));
        Ok(())
    }

    fn whole(&self, end: Place) -> Result<usize, Fault> {
        match self.before {
            None => wrong(end, "the run has no 'loop'", "'loop' on the line where the loop begins"),
            Some(before) if before == self.members.len() => wrong(end, "the loop is empty", "delays and edges after 'loop'"),
            Some(before) => Ok(before),
        }
    }
}
