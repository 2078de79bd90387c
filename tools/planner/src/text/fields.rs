//! The lines inside a location or an edge.

use super::cursor::Cursor;
use super::fault::{wrong, Fault, Place};
use super::heads::no_comma;
use super::{hints, Parser, Record};
use crate::sheet::limits;
use crate::sheet::{lower_byte, upper_byte};

/// A comparison of a clock with a number. Where it is open which clocks there are, so is the clock's place.
struct Test {
    clock: Option<usize>,
    name: String,
    sign: &'static str,
    number: u8,
    place: Place,
}

impl Parser {
    /// Notes that the open record is given something, which it may be once.
    fn once(&mut self, what: &str, place: Place) -> Result<(), Fault> {
        if let Some((_, line)) = self.given.iter().find(|(given, _)| given == what) {
            let fault = Fault::new(place, format!("the {what} is given twice, first on line {line}"), "it once");
            self.astray();
            return Err(fault);
        }
        if matches!(self.record, Record::Location(_) | Record::Edge(_)) {
            self.given.push((what.to_string(), self.line));
        }
        Ok(())
    }

    fn price(&mut self, what: &str, least: i64, range: &str, cursor: &mut Cursor) -> Result<i64, Fault> {
        let word = cursor.place();
        let value = cursor.number(range)?;
        let place = cursor.place();
        cursor.end(&format!("the {what}"))?;
        if value == 0 {
            return wrong(place, format!("a {what} of 0 says nothing"), format!("{range}, or no {what} at all"));
        }
        if value < least || limits::PRICE < value {
            return wrong(place, format!("{what} {value} is out of range"), range);
        }
        if let Record::None = self.record {
            self.astray();
            return wrong(word, format!("the {what} belongs to nothing"), "a location or edge before it");
        }
        self.once(what, word)?;
        Ok(value)
    }

    pub(super) fn cost(&mut self, cursor: &mut Cursor) -> Result<(), Fault> {
        let cost = self.price("cost", -limits::PRICE, "a cost from -10000 to 10000 that is not 0", cursor)? as i16;
        match self.record {
            Record::Location(i) => self.sheet.locations[i].cost = cost,
            Record::Edge(i) => self.sheet.edges[i].cost = cost,
            Record::None | Record::Lost => {}
        }
        Ok(())
    }

    pub(super) fn reward(&mut self, cursor: &mut Cursor) -> Result<(), Fault> {
        let reward = self.price("reward", 1, "a reward from 1 to 10000", cursor)? as u16;
        match self.record {
            Record::Location(i) => self.sheet.locations[i].reward = reward,
            Record::Edge(i) => self.sheet.edges[i].reward = reward,
            Record::None | Record::Lost => {}
        }
        Ok(())
    }

    /// Nothing where it is open which clocks there are.
    fn clock(&self, name: &str, place: Place) -> Result<Option<usize>, Fault> {
        let clocks = &self.sheet.clocks;
        match clocks.iter().position(|clock| clock == name) {
            None if !clocks.is_empty() => {
                let fault = Fault::new(place, format!("'{name}' is no clock"), format!("one of: {}", clocks.join(", ")));
                Err(fault.meant(hints::nearest(name, clocks.iter().map(String::as_str))))
            }
            place => Ok(place),
        }
    }

    fn test(&self, name: String, cursor: &mut Cursor) -> Result<Test, Fault> {
        let first = cursor.place();
        let clock = self.clock(&name, first)?;
        let sign = cursor.sign(&["<", "<=", ">", ">=", "="], "one of < <= > >= = after the clock")?;
        let number = cursor.number("a whole number from 0 to 12")?;
        match u8::try_from(number) {
            Ok(small) if number <= limits::BOUND => Ok(Test { clock, name, sign, number: small, place: first.to(cursor.place()) }),
            _ => wrong(cursor.place(), format!("{name} {sign} {number} is out of range"), "a whole number from 0 to 12"),
        }
    }

    /// A line that starts with the name of a clock.
    pub(super) fn bound(&mut self, word: &str, cursor: &mut Cursor) -> Result<(), Fault> {
        let first = cursor.place();
        if let Record::Edge(_) = self.record {
            self.astray();
            return wrong(first, format!("'{word}' starts a line of an edge"), "'when' before the guards");
        }
        if let Record::None = self.record {
            self.astray();
            return wrong(first, "the bound belongs to nothing", "a location before it");
        }
        let test = self.test(word.to_string(), cursor)?;
        let upper = test.sign == "<" || test.sign == "<=";
        if let (Record::Location(_), false) = (self.record, upper) {
            return wrong(test.place, format!("{word} {} {} in a location", test.sign, test.number), "an upper bound, < or <=");
        }
        cursor.end("the bound: each bound has a line of its own")?;
        let Some(j) = test.clock else { return Ok(()) };
        self.once(&format!("bound of {word}"), first)?;
        if let Record::Location(i) = self.record {
            self.sheet.locations[i].upper[j] = Some(upper_byte(test.number, test.sign == "<="));
            self.locations[i].bounds[j] = (self.line, test.place);
        }
        Ok(())
    }

    /// Whether the open record may have guards and a reset.
    fn in_edge(&mut self, place: Place, word: &str, expected: &str) -> Result<(), Fault> {
        if matches!(self.record, Record::None | Record::Location(_)) {
            self.astray();
            return wrong(place, format!("'{word}' is not in an edge"), expected);
        }
        Ok(())
    }

    pub(super) fn guards(&mut self, cursor: &mut Cursor) -> Result<(), Fault> {
        self.in_edge(cursor.place(), "when", "an edge before it, or bounds of a location without 'when'")?;
        loop {
            let name = cursor.name("a guard like x >= 3")?;
            let test = self.test(name, cursor)?;
            self.guard(test)?;
            if cursor.done() {
                return Ok(());
            }
            cursor.sign(&[","], "a comma before the next guard")?;
        }
    }

    /// `=` sets both ends, but for = 0, where the lower end holds anyway.
    fn guard(&mut self, test: Test) -> Result<(), Fault> {
        let Test { name, sign, number, place, .. } = test;
        if sign == ">=" && number == 0 {
            return wrong(place, format!("{name} >= 0 holds always"), "a guard that can fail, or none");
        }
        let Some(j) = test.clock else { return Ok(()) };
        let lower = sign == ">" || sign == ">=" || (sign == "=" && number > 0);
        let upper = sign == "<" || sign == "<=" || sign == "=";
        if lower {
            self.once(&format!("lower guard of {name}"), place)?;
        }
        if upper {
            self.once(&format!("upper guard of {name}"), place)?;
        }
        if let Record::Edge(i) = self.record {
            let edge = &mut self.sheet.edges[i];
            edge.lower[j] = if lower { Some(lower_byte(number, sign != ">")) } else { edge.lower[j] };
            edge.upper[j] = if upper { Some(upper_byte(number, sign != "<")) } else { edge.upper[j] };
        }
        Ok(())
    }

    pub(super) fn reset(&mut self, cursor: &mut Cursor) -> Result<(), Fault> {
        self.in_edge(cursor.place(), "reset", "an edge before it")?;
        let word = cursor.place();
        let (mut mask, mut first) = (0, true);
        while first || !cursor.done() {
            first = false;
            let name = cursor.name("the clocks to reset")?;
            let bit = self.clock(&name, cursor.place())?.map_or(0, |j| 1 << j);
            if mask & bit != 0 {
                return wrong(cursor.place(), format!("clock '{name}' is reset twice"), "each clock once");
            }
            mask |= bit;
            no_comma(cursor)?;
        }
        self.once("reset", word)?;
        if let Record::Edge(i) = self.record {
            self.sheet.edges[i].reset = mask;
        }
        Ok(())
    }
}
