//! Each kind of what editions lay down, and the least number of its cases among the random sheets.

use crate::coverage::editions::{
    answered, checked, flipped, fourth_kind, long, stray, unnamed, LONGEST,
};
use crate::judges::numbers::unnamed_bits;
use crate::reading::edition::Edition;
use crate::sheets::variants::Record;

type Promised = Vec<(String, u64)>;

const EDITIONS: [Edition; 2] = [Edition::First, Edition::Second];

/// Each edition with each number of clocks that it allows.
fn all_clocks() -> impl Iterator<Item = (Edition, usize)> {
    let clocks =
        |edition: Edition| (1..=edition.most_clocks()).map(move |clocks| (edition, clocks));
    EDITIONS.into_iter().flat_map(clocks)
}

/// What sheets answer of each edition with each number of clocks.
fn answers() -> Promised {
    let plan =
        [(0, 250), (13, 80), (14, 15), (17, 30)].map(|(answer, least)| ("plan", answer, least));
    let work = [(0, 80), (18, 150)].map(|(answer, least)| ("work plan", answer, least));
    let each: Vec<_> = plan.into_iter().chain(work).collect();
    let all = all_clocks().flat_map(|(edition, clocks)| {
        let told = |(call, answer, least)| (answered(edition, clocks, call, answer), least);
        each.clone().into_iter().map(told).collect::<Promised>()
    });
    let second = Edition::Second;
    let more = [
        (answered(Edition::First, 3, "plan", 12), 80),
        (answered(second, 3, "plan", 12), 15),
        (answered(second, 4, "plan", 11), 15),
        (answered(second, 4, "plan", 12), 100),
    ];
    all.chain(more).collect()
}

/// Sheets whose first byte is changed to the other edition's.
fn other_editions() -> Promised {
    let all = all_clocks().flat_map(|(edition, clocks)| match clocks {
        4 => vec![(flipped(edition, clocks, 4), 1000)],
        _ => vec![(flipped(edition, clocks, 0), 100), (flipped(edition, clocks, 6), 100)],
    });
    all.collect()
}

/// Every bit that an edition gives no meaning, or that of a clock from the second on.
fn stray_bits() -> Promised {
    let bits = |edition: Edition| {
        let records = [Record::Location, Record::Edge].into_iter();
        records.flat_map(move |record| {
            let bits = record.stray_bits(edition, 1).into_iter();
            bits.map(move |bit| (stray(edition, record, bit, 6), 10))
        })
    };
    EDITIONS.into_iter().flat_map(bits).collect()
}

/// Every bit that the layout does not name, or that of a clock from the second on.
fn unnamed_ones() -> Promised {
    let bits = |edition: Edition| {
        let bits = unnamed_bits(edition, 1).into_iter();
        bits.map(move |bit| (unnamed(edition, bit, 15), 5))
    };
    EDITIONS.into_iter().flat_map(bits).collect()
}

/// Each kind and the least number of its cases.
pub fn promised() -> Promised {
    let lengths = [4, 6, 7, 8, 9, 10].map(|answer| (long(Edition::First, answer), 10));
    let fourth = [
        ("an edge of the cycle resets clock 3", 300),
        ("an edge of the cycle resets clock 3 alone", 30),
        ("an edge of the cycle has a lower guard of clock 3", 100),
        ("an edge of the cycle has an upper guard of clock 3", 150),
        ("class 4 at clock 0", 20),
        ("class 4 at clock 1", 20),
        ("class 4 at clock 2", 20),
        ("class 4 at clock 3", 20),
        ("a node of 2^32 and more", 300),
        ("2,048 nodes", 10),
    ];
    let fourth = fourth.map(|(kind, least)| (fourth_kind(kind), least));
    let longest = LONGEST.map(|(edition, length)| (checked(edition, length), 100));
    let bits = stray_bits().into_iter().chain(unnamed_ones());
    let all = answers().into_iter().chain(other_editions()).chain(bits);
    all.chain(lengths).chain(longest).chain(fourth).collect()
}
