//! What can be asked only when the whole description is read.

use super::fault::Fault;
use super::notes::{EdgeNote, Named};
use super::{hints, Mistake, Parser};
use crate::sheet::encode::edge_record;
use crate::sheet::limits;
use crate::sheet::{Edge, Sheet};

impl Parser {
    pub(super) fn finish(mut self) -> Result<Sheet, Vec<Mistake>> {
        if self.mistakes.is_empty() {
            self.something();
        }
        for i in 0..self.sheet.locations.len() {
            self.bounded(i);
        }
        for i in 0..self.sheet.edges.len() {
            self.joined(i);
        }
        self.entered_once();
        self.started();
        if self.mistakes.is_empty() {
            return Ok(self.sheet);
        }
        self.mistakes.sort_by_key(|mistake| (mistake.line, mistake.fault.place.column));
        Err(self.mistakes)
    }

    /// Asked only where nothing is wrong before: what is wrong may have been meant for what is missing.
    fn something(&mut self) {
        let (line, place) = (self.line.max(1), self.end);
        if self.sheet.clocks.is_empty() {
            self.tell(line, Fault::new(place, "the description ends without clocks", "a line like: clocks x y"));
        } else if self.sheet.locations.is_empty() {
            self.tell(line, Fault::new(place, "the description ends without a location", "1 to 12 locations"));
        }
    }

    fn bounded(&mut self, i: usize) {
        let (location, note) = (&self.sheet.locations[i], &self.locations[i]);
        let clocks = self.sheet.clocks.iter().enumerate();
        let missing: Vec<_> =
            clocks.filter(|(j, _)| location.upper[*j].is_none() && !note.open[*j]).map(|(_, clock)| clock.as_str()).collect();
        let Some(first) = missing.first() else { return };
        let (clocks, name) = (if missing.len() == 1 { "clock" } else { "clocks" }, &location.name);
        let what = format!("location '{name}' has no bound for {clocks} {}", missing.join(", "));
        let fault = Fault::new(note.place, what, format!("a bound for each clock, like {first} <= 3"));
        self.tell(note.line, fault);
    }

    /// Sets the source and the target of an edge.
    fn joined(&mut self, i: usize) {
        let Some(ends) = self.edges[i].ends.clone() else { return };
        let [source, target] = ends.map(|end| self.end_of(i, end));
        self.edges[i].open |= source.is_none() || target.is_none();
        self.sheet.edges[i].source = source.unwrap_or_default();
        self.sheet.edges[i].target = target.unwrap_or_default();
    }

    /// The place of a location. An unknown name is not told where it may be that of a location that could not be read.
    fn end_of(&mut self, edge: usize, (name, place): Named) -> Option<usize> {
        let names: Vec<_> = self.sheet.locations.iter().map(|location| location.name.as_str()).collect();
        let found = names.iter().position(|other| *other == name);
        if found.is_none() && !self.locations_lost && !names.is_empty() {
            let fault = Fault::new(place, format!("'{name}' is no location"), format!("one of: {}", names.join(", ")));
            let fault = fault.meant(hints::nearest(&name, names.into_iter()));
            self.tell(self.edges[edge].line, fault);
        }
        found
    }

    /// Question 17. The names of edges do not stand in the bytes, and make no difference. Of too many edges it is open which will stay.
    fn entered_once(&mut self) {
        if self.heads[1] > limits::EDGES {
            return;
        }
        let record = |(edge, note): (&Edge, &EdgeNote)| (!note.open).then(|| edge_record(self.sheet.edition, edge));
        let records: Vec<_> = self.sheet.edges.iter().zip(&self.edges).map(record).collect();
        for (second, record) in records.iter().enumerate().filter(|(_, record)| record.is_some()) {
            let first = records.iter().position(|other| other == record).unwrap_or(second);
            if first < second {
                let [first_name, second_name] = [first, second].map(|i| &self.sheet.edges[i].name);
                let what = format!("edge '{second_name}' is the same as edge '{first_name}' on line {}", self.edges[first].line);
                let fault = Fault::new(self.edges[second].place, what, "another source, target, guard, reset, cost or reward");
                self.tell(self.edges[second].line, fault);
            }
        }
    }

    /// Question 11.
    fn started(&mut self) {
        let (Some(first), false) = (self.sheet.locations.first(), self.start_lost) else { return };
        let clocks = self.sheet.clocks.iter().enumerate().filter(|(j, _)| first.upper[*j] == Some(0));
        let told: Vec<_> = clocks
            .map(|(j, clock)| {
                let what = format!("a run starts in '{}' with all clocks at 0, and {clock} < 0 does not admit that", first.name);
                let (line, place) = self.locations[0].bounds[j];
                Mistake { line, fault: Fault::new(place, what, format!("a bound like {clock} <= 0 or {clock} < 1")) }
            })
            .collect();
        self.mistakes.extend(told);
    }
}
