//! Faults planted in the answers to question 18.

use crate::reading::expected::expect;
use crate::reading::explore::Graph;
use crate::reading::sheet::{read_records, Sheet};
use crate::reading::strict::{all_closed, strict_bytes, Byte, Strict};
use planner::calls::WorkNumbers;

#[derive(Clone, Copy, Debug, PartialEq)]
pub enum Question18 {
    /// 18 in place of this refusal, where something is strict.
    Before(u8),
    /// A strict bound of a location passes.
    Bound,
    /// A strict upper guard passes.
    UpperGuard,
    /// A strict lower guard passes.
    LowerGuard,
    /// A strict bound passes at a location that no run comes to.
    LocationApart,
    /// A strict guard passes at an edge that no run takes.
    EdgeApart,
    /// A bound and an upper guard of byte 0 pass.
    Zero,
    /// The first location passes.
    FirstLocation,
    /// All locations but the first pass.
    OtherLocations,
    /// The last location passes.
    LastLocation,
    /// The last edge passes.
    LastEdge,
    /// All clocks but the first pass.
    OtherClocks,
    /// The last clock passes, unless it is the only one.
    LastClock,
    /// The fourth clock passes.
    FourthClock,
    /// An absent upper guard is taken for strict.
    Absent,
    /// A lower guard is asked as if it were an upper one.
    AsUpper,
    /// The bounds of as many clocks as the edition allows are asked, and are 0 where there are none.
    AbsentClocks,
}

pub const QUESTION_18_FAULTS: [(&str, Question18); 21] = [
    ("strict-before-17", Question18::Before(17)),
    ("strict-before-11", Question18::Before(11)),
    ("strict-before-12", Question18::Before(12)),
    ("strict-before-13", Question18::Before(13)),
    ("strict-before-14", Question18::Before(14)),
    ("strict-bound", Question18::Bound),
    ("strict-upper-guard", Question18::UpperGuard),
    ("strict-lower-guard", Question18::LowerGuard),
    ("strict-location-apart", Question18::LocationApart),
    ("strict-edge-apart", Question18::EdgeApart),
    ("strict-zero", Question18::Zero),
    ("strict-first-location", Question18::FirstLocation),
    ("strict-other-locations", Question18::OtherLocations),
    ("strict-last-location", Question18::LastLocation),
    ("strict-last-edge", Question18::LastEdge),
    ("strict-other-clocks", Question18::OtherClocks),
    ("strict-last-clock", Question18::LastClock),
    ("strict-absent", Question18::Absent),
    ("strict-as-upper", Question18::AsUpper),
    ("strict-absent-clocks", Question18::AbsentClocks),
    ("strict-fourth-clock", Question18::FourthClock),
];

impl Question18 {
    /// Whether the fault lets this strict byte pass.
    fn passes(self, strict: &Strict, sheet: &Sheet, graph: &Graph) -> bool {
        let bound = strict.byte == Byte::Bound;
        match self {
            Question18::Bound => bound,
            Question18::UpperGuard => strict.byte == Byte::UpperGuard,
            Question18::LowerGuard => strict.byte == Byte::LowerGuard,
            Question18::LocationApart => bound && !strict.is_reached(graph),
            Question18::EdgeApart => !bound && !strict.is_reached(graph),
            Question18::Zero => strict.value == 0,
            Question18::FirstLocation => bound && strict.at == 0,
            Question18::OtherLocations => bound && strict.at > 0,
            Question18::LastLocation => bound && strict.at + 1 == sheet.locations.len(),
            Question18::LastEdge => !bound && strict.at + 1 == sheet.edges.len(),
            Question18::OtherClocks => strict.clock > 0,
            Question18::LastClock => sheet.clocks > 1 && strict.clock + 1 == sheet.clocks,
            Question18::FourthClock => strict.clock == 3,
            _ => false,
        }
    }

    /// Whether the fault finds something strict in a sheet that has nothing strict.
    fn finds(self, sheet: &Sheet) -> bool {
        let edges = || sheet.edges.iter();
        match self {
            Question18::Absent => edges().any(|edge| edge.upper[..sheet.clocks].contains(&None)),
            Question18::AsUpper => edges().any(|edge| edge.lower.iter().any(Option::is_some)),
            Question18::AbsentClocks => sheet.clocks < sheet.edition.most_clocks(),
            _ => false,
        }
    }

    /// What is answered with the fault where the library answered `refusal`.
    fn answer(self, bytes: &[u8], refusal: u8) -> u8 {
        let something_strict = || read_records(bytes).is_ok_and(|(sheet, _)| !all_closed(&sheet));
        match (self, refusal) {
            (Question18::Before(question), _) if question == refusal && something_strict() => {
                return 18
            }
            (_, 0 | 18) => {}
            _ => return refusal,
        }
        let expected = expect(bytes);
        let sheet = expected.sheet.expect("a sheet with a plan is read");
        let graph = expected.graph.expect("a sheet with a plan has a graph");
        let missed = strict_bytes(&sheet).iter().all(|strict| self.passes(strict, &sheet, &graph));
        match refusal {
            0 if self.finds(&sheet) => 18,
            18 if missed => 0,
            _ => refusal,
        }
    }

    /// Like `answer`; where that is another than the library's, the lengths are changed with it.
    pub fn plant(self, bytes: &[u8], refusal: u8, numbers: &mut WorkNumbers) -> u8 {
        let answer = self.answer(bytes, refusal);
        if answer != refusal {
            let length = i64::from(answer == 0);
            *numbers = WorkNumbers { stem: length, cycle: length };
        }
        answer
    }
}
