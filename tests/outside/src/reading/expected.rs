//! What the specification has a plan answer, as far as it is settled without the ratio.

use crate::graphs::questions::{some_cycle_earns, some_idle_cycle_gains};
use crate::reading::explore::{explore, Graph, MOST_NODES};
use crate::reading::sheet::{read, Sheet};
use crate::reading::strict::all_closed;

pub struct Expected {
    pub refusal: u8,
    /// There where questions 2 to 11 and 17 are answered yes.
    pub sheet: Option<Sheet>,
    /// There with the sheet; not whole where the refusal is 12.
    pub graph: Option<Graph>,
}

impl Expected {
    /// What a work plan answers, lent buffers long enough: 18 is asked after all questions of a plan.
    pub fn work_refusal(&self) -> u8 {
        match &self.sheet {
            Some(sheet) if self.refusal == 0 && !all_closed(sheet) => 18,
            _ => self.refusal,
        }
    }
}

/// Sheets with more nodes than this are not counted any further.
pub const COUNTED: usize = 2300;

fn refusal_of(graph: &Graph) -> u8 {
    let nodes = graph.numbers.len();
    if nodes > MOST_NODES {
        12
    } else if !some_cycle_earns(nodes, &graph.arcs) {
        13
    } else if some_idle_cycle_gains(nodes, &graph.arcs) {
        14
    } else {
        0
    }
}

/// What a plan of the sheet would answer if question 17 were not asked.
pub fn refusal_but_for_17(sheet: &Sheet) -> u8 {
    if sheet.start_admits_zero() {
        refusal_of(&explore(sheet, COUNTED))
    } else {
        11
    }
}

pub fn expect(bytes: &[u8]) -> Expected {
    match read(bytes) {
        Err(refusal) => Expected { refusal, sheet: None, graph: None },
        Ok(sheet) => {
            let graph = explore(&sheet, COUNTED);
            Expected { refusal: refusal_of(&graph), sheet: Some(sheet), graph: Some(graph) }
        }
    }
}
