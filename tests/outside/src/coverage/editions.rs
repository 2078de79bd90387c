//! What the random sheets promise to cover of each edition, and of four clocks.

use crate::coverage::tally::Tally;
use crate::judges::plan::Answer;
use crate::reading::edition::Edition;
use crate::reading::explore::{Graph, MOST_NODES};
use crate::reading::region::node_of;
use crate::reading::sheet::{Sheet, LONGEST_SHEET};
use crate::sheets::variants::Record;

/// The bytes of a sheet with every field of the format.
pub const LONGEST: [(Edition, usize); 2] =
    [(Edition::First, 580), (Edition::Second, LONGEST_SHEET)];

fn named(edition: Edition, clocks: usize) -> String {
    let plural = if clocks == 1 { "" } else { "s" };
    format!("edition {} with {clocks} clock{plural}", edition.byte())
}

pub fn unnamed(edition: Edition, bit: u32, answer: u8) -> String {
    let group = format!("edition {}, a bit too many in a node's number", edition.byte());
    format!("{group}, step answers {answer}: bit {bit:>2}")
}

pub fn flipped(edition: Edition, clocks: usize, answer: u8) -> String {
    format!("{}, read as the other edition, check answers: {answer:>2}", named(edition, clocks))
}

pub fn stray(edition: Edition, record: Record, bit: usize, answer: u8) -> String {
    let group =
        format!("edition {}, a bit too many in the map of {}", edition.byte(), record.named());
    format!("{group}, check answers {answer}: bit {bit:>2}")
}

pub fn long(edition: Edition, answer: u8) -> String {
    format!("edition {} with 581 to 656 bytes, check answers: {answer:>2}", edition.byte())
}

pub fn count_long(tally: &mut Tally, variant: &[u8], answer: u8) {
    let edition = variant.first().and_then(|&byte| Edition::of_byte(byte));
    if let (581..=656, Some(edition)) = (variant.len(), edition) {
        tally.count(long(edition, answer));
    }
}

pub fn checked(edition: Edition, length: usize) -> String {
    format!("edition {}, accepted by the check: {length} bytes", edition.byte())
}

/// Of a sheet of this length that passes the check: one with every field of the format counts.
pub fn count_checked(tally: &mut Tally, edition: Edition, length: usize) {
    if LONGEST.contains(&(edition, length)) {
        tally.count(checked(edition, length));
    }
}

pub fn answered(edition: Edition, clocks: usize, call: &str, answer: u8) -> String {
    format!("{}, {call} answers: {answer:>2}", named(edition, clocks))
}

/// What a plan and a work plan of a sheet answer that passes questions 2 to 10.
pub fn count_answers(tally: &mut Tally, sheet: &Sheet, plan: u8, work: u8) {
    for (call, answer) in [("plan", plan), ("work plan", work)] {
        tally.count(answered(sheet.edition, sheet.clocks, call, answer));
    }
}

pub fn fourth_kind(kind: &str) -> String {
    format!("accepted with four clocks: {kind}")
}

/// How the fourth clock of an accepted sheet comes into play.
pub fn count_fourth(tally: &mut Tally, sheet: &Sheet, graph: &Graph, answer: &Answer) {
    if sheet.clocks < 4 {
        return;
    }
    let cycle = || answer.cycle.iter().filter_map(|&code| sheet.edges.get(usize::from(code)));
    let fourth_rank = |clock: usize| {
        let mut nodes = graph.numbers.iter().filter_map(|&number| node_of(sheet, number));
        nodes.any(|node| node.class[clock] == 4)
    };
    let kinds = [
        ("an edge of the cycle resets clock 3", cycle().any(|edge| edge.mask >> 3 == 1)),
        ("an edge of the cycle resets clock 3 alone", cycle().any(|edge| edge.mask == 8)),
        (
            "an edge of the cycle has a lower guard of clock 3",
            cycle().any(|edge| edge.lower[3].is_some()),
        ),
        (
            "an edge of the cycle has an upper guard of clock 3",
            cycle().any(|edge| edge.upper[3].is_some()),
        ),
        ("class 4 at clock 0", fourth_rank(0)),
        ("class 4 at clock 1", fourth_rank(1)),
        ("class 4 at clock 2", fourth_rank(2)),
        ("class 4 at clock 3", fourth_rank(3)),
        ("a node of 2^32 and more", graph.numbers.iter().any(|number| number >> 32 > 0)),
        ("2,048 nodes", graph.numbers.len() == MOST_NODES),
    ];
    for (kind, _) in kinds.iter().filter(|(_, holds)| *holds) {
        tally.count(fourth_kind(kind));
    }
}
