//! The replayer: a state gone on from the start, each bound and guard compared.

use super::{Member, NotAllowed};
use crate::fraction::fraction;
use crate::schedule::Sum;
use crate::sheet::{lower_words, upper_words, Edge, Sheet};
use crate::text::fault::{fault, Fault};

#[derive(Clone, Debug, PartialEq, Eq)]
pub struct State {
    location: usize,
    clocks: Vec<i64>,
}

pub struct Replay<'a> {
    sheet: &'a Sheet,
    n: i64,
    pub state: State,
    now: Sum,
    /// Before each member, and behind the last.
    pub passed: Vec<Sum>,
}

impl Replay<'_> {
    pub fn start(sheet: &Sheet, n: i64) -> Replay<'_> {
        let state = State { location: 0, clocks: vec![0; sheet.clocks.len()] };
        Replay { sheet, n, state, now: Sum::default(), passed: vec![Sum::default()] }
    }

    /// Goes on by these members.
    pub fn go(&mut self, members: &[Member]) -> Result<(), NotAllowed> {
        for member in members {
            let place = self.passed.len() - 1;
            let taken = match *member {
                Member::Delay(nths) => self.delay(nths),
                Member::Edge(i) => self.edge(&self.sheet.edges[i]),
            };
            taken.map_err(|fault| NotAllowed { place, fault })?;
            self.passed.push(self.now);
        }
        Ok(())
    }

    fn delay(&mut self, nths: i64) -> Result<(), Fault> {
        if nths < 0 {
            return fault(format!("a delay of {nths}"), "0 or more");
        }
        let location = &self.sheet.locations[self.state.location];
        self.now.time += nths;
        self.now.cost += nths * i64::from(location.cost);
        self.now.reward += nths * i64::from(location.reward);
        self.state.clocks.iter_mut().for_each(|clock| *clock += nths);
        self.within("the delay")
    }

    fn value(&self, j: usize) -> String {
        format!("{} = {}", self.sheet.clocks[j], fraction(self.state.clocks[j].into(), self.n.into()))
    }

    /// An upper byte 2c means < c and 2c + 1 means ≤ c, compared at c times n.
    fn below(&self, j: usize, byte: u8) -> bool {
        let (value, bound) = (self.state.clocks[j], i64::from(byte / 2) * self.n);
        value < bound || (byte & 1 == 1 && value == bound)
    }

    fn above(&self, j: usize, byte: u8) -> bool {
        let (value, bound) = (self.state.clocks[j], i64::from(byte / 2) * self.n);
        value > bound || (byte & 1 == 0 && value == bound)
    }

    fn within(&self, after: &str) -> Result<(), Fault> {
        let location = &self.sheet.locations[self.state.location];
        for (j, clock) in self.sheet.clocks.iter().enumerate() {
            match location.upper[j] {
                Some(byte) if !self.below(j, byte) => {
                    let bound = format!("{clock} {} in location '{}'", upper_words(byte), location.name);
                    return fault(format!("after {after} {}", self.value(j)), bound);
                }
                _ => {}
            }
        }
        Ok(())
    }

    fn guarded(&self, edge: &Edge) -> Result<(), Fault> {
        for (j, clock) in self.sheet.clocks.iter().enumerate() {
            let wanted = match (edge.lower[j], edge.upper[j]) {
                (Some(byte), _) if !self.above(j, byte) => lower_words(byte),
                (_, Some(byte)) if !self.below(j, byte) => upper_words(byte),
                _ => continue,
            };
            return fault(format!("at edge '{}' {}", edge.name, self.value(j)), format!("{clock} {wanted}"));
        }
        Ok(())
    }

    fn edge(&mut self, edge: &Edge) -> Result<(), Fault> {
        let (here, source) = (&self.sheet.locations[self.state.location].name, &self.sheet.locations[edge.source].name);
        if edge.source != self.state.location {
            let name = &edge.name;
            return fault(format!("edge '{name}' leaves '{source}', and the run is in '{here}'"), format!("an edge that leaves '{here}'"));
        }
        self.guarded(edge)?;
        self.now.cost += self.n * i64::from(edge.cost);
        self.now.reward += self.n * i64::from(edge.reward);
        self.state.location = edge.target;
        for (j, clock) in self.state.clocks.iter_mut().enumerate() {
            if edge.reset >> j & 1 == 1 {
                *clock = 0;
            }
        }
        self.within(&format!("edge '{}'", edge.name))
    }
}
