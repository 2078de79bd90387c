//! The lines that begin something: the edition, the clocks, a location, an edge.

use super::cursor::Cursor;
use super::fault::{wrong, Fault, Place};
use super::notes::{EdgeNote, LocationNote, Named};
use super::{Parser, Record, WORDS};
use crate::sheet::edition::Edition;
use crate::sheet::limits;
use crate::sheet::{Edge, Location};

/// A name that is no word of the format.
fn plain_name(cursor: &mut Cursor, kind: &str, expected: &str) -> Result<String, Fault> {
    let name = cursor.name(expected)?;
    if WORDS.contains(&name.as_str()) {
        return wrong(cursor.place(), format!("'{name}' is a word of the format and no name"), format!("another name for the {kind}"));
    }
    Ok(name)
}

/// Clocks in a row have spaces between them.
pub(super) fn no_comma(cursor: &mut Cursor) -> Result<(), Fault> {
    if cursor.at(",") {
        let _ = cursor.sign(&[","], "");
        return wrong(cursor.place(), "found ','", "spaces between the clocks");
    }
    Ok(())
}

impl Parser {
    /// A sheet that asks for no edition has the first that its clocks find room in.
    pub(super) fn edition(&mut self, cursor: &mut Cursor) -> Result<(), Fault> {
        let word = cursor.place();
        let number = cursor.number("the number of the edition, 1 or 2")?;
        let place = cursor.place();
        cursor.end("the edition").inspect_err(|_| self.clocks_lost |= cursor.names("clocks"))?;
        let Some(edition) = u8::try_from(number).ok().and_then(Edition::of) else {
            return wrong(place, format!("there is no edition {number}"), "1 or 2");
        };
        if let Some((_, line)) = self.edition {
            return wrong(word, format!("the edition is given twice, first on line {line}"), "it once");
        }
        if !self.sheet.clocks.is_empty() {
            return wrong(word, "the edition stands behind the clocks", "it before them");
        }
        self.edition = Some((edition, self.line));
        Ok(())
    }

    fn too_many(&self, count: usize, place: Place) -> Result<(), Fault> {
        let (most, of) = match self.edition {
            Some((edition, _)) => (edition.clocks(), format!(" in edition {}", edition.number())),
            None => (limits::CLOCKS, String::new()),
        };
        if count <= most {
            return Ok(());
        }
        let fault = Fault::new(place, format!("{count} clocks"), format!("1 to {most} clocks{of}"));
        Err(fault.meant((count <= limits::CLOCKS).then_some("edition 2")))
    }

    pub(super) fn clocks(&mut self, cursor: &mut Cursor) -> Result<(), Fault> {
        let named = !std::mem::take(&mut self.sheet.clocks).is_empty();
        self.clocks_lost = true;
        if named {
            self.astray();
            return wrong(cursor.place(), "the clocks are named twice", "one line with all clocks");
        }
        let (mut names, mut count): (Vec<String>, usize) = (Vec::new(), 0);
        let mut all = None;
        while count == 0 || !cursor.done() {
            let name = plain_name(cursor, "clock", "one to four names of clocks")?;
            if names.contains(&name) {
                return wrong(cursor.place(), format!("clock '{name}' is named twice"), "different names");
            }
            all = Some(all.map_or(cursor.place(), |first: Place| first.to(cursor.place())));
            no_comma(cursor)?;
            count += 1;
            if count <= limits::CLOCKS {
                names.push(name);
            }
        }
        self.too_many(count, all.unwrap_or_default())?;
        self.sheet.edition = self.edition.map_or(Edition::least_for(count), |(edition, _)| edition);
        (self.sheet.clocks, self.clocks_lost) = (names, false);
        Ok(())
    }

    /// The lines below a faulty one are checked for their form alone.
    pub(super) fn location(&mut self, cursor: &mut Cursor) -> Result<(), Fault> {
        self.heads[0] += 1;
        self.given.clear();
        let name = plain_name(cursor, "location", "the location's name");
        let place = cursor.place();
        let known = name.clone().unwrap_or_default();
        let done = name.and_then(|name| {
            cursor.end("the location's name: its prices and bounds have lines of their own")?;
            self.new_location(&name, place)
        });
        let i = self.sheet.locations.len();
        self.record = if done.is_ok() && i < limits::LOCATIONS { Record::Location(i) } else { Record::Lost };
        self.locations_lost |= done.is_err();
        if i < limits::LOCATIONS {
            let open = [done.is_err() || self.clocks_lost; limits::CLOCKS];
            self.sheet.locations.push(Location { name: known, ..Location::default() });
            self.locations.push(LocationNote { line: self.line, place, open, ..LocationNote::default() });
        }
        done
    }

    fn new_location(&mut self, name: &str, place: Place) -> Result<(), Fault> {
        if let Some(at) = self.sheet.locations.iter().position(|l| l.name == name) {
            let first = &mut self.locations[at];
            // what is missing there may stand here
            first.open = [true; limits::CLOCKS];
            return wrong(place, format!("location '{name}' is there already, on line {}", first.line), "another name");
        }
        if self.heads[0] == limits::LOCATIONS + 1 {
            return wrong(place, format!("location '{name}' is the 13th"), "at most 12 locations");
        }
        Ok(())
    }

    pub(super) fn edge(&mut self, cursor: &mut Cursor) -> Result<(), Fault> {
        self.heads[1] += 1;
        self.given.clear();
        let (mut edge, mut note) = (Edge::default(), EdgeNote { line: self.line, ..EdgeNote::default() });
        let ends = self.edge_head(cursor, &mut edge.name, &mut note.place);
        let i = self.sheet.edges.len();
        self.record = if ends.is_ok() && i < limits::EDGES { Record::Edge(i) } else { Record::Lost };
        note.open = ends.is_err() || self.clocks_lost;
        note.ends = ends.as_ref().ok().cloned();
        if i < limits::EDGES {
            self.sheet.edges.push(edge);
            self.edges.push(note);
        }
        ends.map(|_| ())
    }

    /// Source and target; the name is given as soon as it is read.
    fn edge_head(&self, cursor: &mut Cursor, known: &mut String, place: &mut Place) -> Result<[Named; 2], Fault> {
        let form = "a line like: edge name: source -> target";
        let name = plain_name(cursor, "edge", form)?;
        *place = cursor.place();
        if cursor.at("->") {
            return wrong(*place, "the edge has no name", format!("a name and a colon first, {form}"));
        }
        *known = name.clone();
        cursor.sign(&[":"], form)?;
        let source = (cursor.name(form)?, cursor.place());
        cursor.sign(&["->"], form)?;
        let target = (cursor.name(form)?, cursor.place());
        cursor.end("the edge's target: its guards and prices have lines of their own")?;
        if let Some(at) = self.sheet.edges.iter().position(|e| e.name == name) {
            return wrong(*place, format!("edge '{name}' is there already, on line {}", self.edges[at].line), "another name");
        }
        if self.heads[1] == limits::EDGES + 1 {
            return wrong(*place, format!("edge '{name}' is the 33rd"), "at most 32 edges");
        }
        Ok([source, target])
    }
}
