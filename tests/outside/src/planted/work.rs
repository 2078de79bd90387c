//! Faults planted in what a work plan refuses for want of room, and in what it leaves in the lengths
//! and in the buffers beside the pairs.

use crate::judges::work::MOST_PAIRS;
use crate::library::marked::PairBuffers;
use crate::reading::explore::MOST_NODES;
use planner::calls::{self, WorkNumbers};

#[derive(Clone, Copy, Debug, PartialEq)]
pub enum Work {
    /// The wait behind the pairs is not 0.
    Behind,
    /// The last edge of the buffer is not 0.
    Last,
    /// Entries from 2,049 on are left as they were.
    Beyond,
    /// A refusal from 2 on leaves the lengths as they were.
    Numbers,
    /// A refusal of the check sets the buffers to 0.
    Clear,
    /// Refusal 17 sets the buffers to 0.
    Clear17,
    /// A refusal from 12 to 14 leaves the waits as they were.
    Leave,
    /// Refusal 18 leaves the edges as they were.
    Leave18,
    /// Buffers of 2,048 entries are taken.
    Short,
    /// The length of the waits is not asked.
    ShortWaits,
    /// The length of the edges is not asked.
    ShortEdges,
    /// A short buffer is refused after the check.
    ShortLate,
    /// Refusal 1 sets the buffers to 0.
    ShortClear,
    /// Refusal 1 leaves the lengths as they were.
    ShortNumbers,
}

pub const WORK_FAULTS: [(&str, Work); 14] = [
    ("work-behind", Work::Behind),
    ("work-last", Work::Last),
    ("work-beyond", Work::Beyond),
    ("work-numbers", Work::Numbers),
    ("work-clear", Work::Clear),
    ("work-clear-17", Work::Clear17),
    ("work-leave", Work::Leave),
    ("work-leave-18", Work::Leave18),
    ("work-short", Work::Short),
    ("work-short-waits", Work::ShortWaits),
    ("work-short-edges", Work::ShortEdges),
    ("work-short-late", Work::ShortLate),
    ("work-short-clear", Work::ShortClear),
    ("work-short-numbers", Work::ShortNumbers),
];

/// What a short buffer is answered with the fault, which leaves it to the check.
fn short(fault: Work, sheet: &[u8], buffers: &PairBuffers) -> u8 {
    let [waits, edges] = [buffers.waits.len(), buffers.edges.len()];
    match fault {
        Work::Short if waits.min(edges) >= MOST_NODES => calls::check(sheet),
        Work::ShortWaits if edges >= MOST_PAIRS => calls::check(sheet),
        Work::ShortEdges if waits >= MOST_PAIRS => calls::check(sheet),
        Work::ShortLate => calls::check(sheet).max(1),
        _ => 1,
    }
}

fn clear(buffers: &mut PairBuffers) {
    buffers.waits.fill(0);
    buffers.edges.fill(0);
}

impl Work {
    /// What is answered with the fault where the library answered `refusal`; what it wrote is changed
    /// with it. `before` is what stood there.
    pub fn plant(
        self,
        sheet: &[u8],
        refusal: u8,
        before: (PairBuffers, WorkNumbers),
        buffers: &mut PairBuffers,
        numbers: &mut WorkNumbers,
    ) -> u8 {
        match (self, refusal) {
            (Work::Behind, 0) => buffers.waits[(numbers.stem + numbers.cycle) as usize] = 1,
            (Work::Last, 0) => *buffers.edges.last_mut().expect("a long buffer") = 1,
            (Work::Beyond, 0 | 12..=14 | 18) => {
                buffers.waits[MOST_PAIRS..].copy_from_slice(&before.0.waits[MOST_PAIRS..]);
                buffers.edges[MOST_PAIRS..].copy_from_slice(&before.0.edges[MOST_PAIRS..]);
            }
            (Work::Numbers, 2..) | (Work::ShortNumbers, 1) => *numbers = before.1,
            (Work::Clear, 2..=11 | 17) | (Work::Clear17, 17) => clear(buffers),
            (Work::ShortClear, 1) => clear(buffers),
            (Work::Leave, 12..=14) => buffers.waits = before.0.waits,
            (Work::Leave18, 18) => buffers.edges = before.0.edges,
            (_, 1) => return short(self, sheet, buffers),
            _ => {}
        }
        refusal
    }
}
