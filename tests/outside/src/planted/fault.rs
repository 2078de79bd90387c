//! The faults that can be planted, by their names.

use crate::planted::editions::{EditionFault, EDITION_FAULTS};
use crate::planted::layout::{LayoutFault, LAYOUT_FAULTS};
use crate::planted::pairs::{PairFault, PAIR_FAULTS};
use crate::planted::smallest::{SmallestFault, SMALLEST_FAULTS};
use crate::planted::strict::{Question18, QUESTION_18_FAULTS};
use crate::planted::sums::{SumFault, SUM_FAULTS};
use crate::planted::twice::{Twice, TWICE_FAULTS};
use crate::planted::units::{UnitFault, LASSO_UNIT_FAULTS, UNIT_FAULTS};
use crate::planted::work::{Work, WORK_FAULTS};

#[derive(Clone, Copy, Debug, PartialEq)]
pub enum Fault {
    /// The ratio is higher by one over q.
    High,
    /// The ratio is lower, and the potentials fit it.
    Low,
    /// The ratio is not in lowest terms.
    Terms,
    /// A potential is higher by 1.
    Potential,
    /// A node is invented.
    Node,
    /// A node is missing.
    Missing,
    /// A node of the list has another number.
    Entry,
    /// Two steps of the lasso are swapped, or its only one is another.
    Lasso,
    /// An entry after the last one is not 0.
    Rest,
    /// 13 in place of 14.
    Refusal,
    /// 13 and 14 exchanged.
    Exchanged,
    /// 14 is asked before 13.
    Order,
    /// 14 for idle cycles that all cost.
    IdleCosts,
    /// 14 for idle cycles that all are free.
    IdleFree,
    /// A sheet is accepted with no other cycles than idle ones, none of which costs less than 0.
    OnlyIdle,
    /// A sheet is accepted though an idle cycle costs less than 0.
    Gain,
    /// The cycle of the lasso is idle and costs 0.
    IdleLasso,
    /// The ratio is lower, and the potentials fit it, where an idle cycle costs 0.
    LowFree,
    /// 12 at 2,048 nodes.
    Border,
    /// 13 for every sheet that is accepted.
    NoneEarns,
    /// A refusal from 2 to 11 writes to a buffer.
    Write,
    /// A refusal from 12 to 14 leaves an entry.
    Leave,
    /// A refused plan leaves one of its numbers as it was.
    Unwritten,
    /// A refused step leaves its cost as it was.
    Stale,
    /// A short buffer is not refused first.
    Short,
    /// The check answers 9 in place of 8.
    Check,
    /// The codes 32 and 33 are swapped in a single step, but not along a lasso.
    Step,
    /// Cost and reward are swapped in a single step along a lasso.
    Prices,
    /// 16 in place of 15.
    Number,
    /// A fault in the smallest of the potentials.
    Smallest(SmallestFault),
    /// A fault in the units of a single step, but not along a lasso.
    Units(UnitFault),
    /// A fault in the units of a single step along a lasso.
    LassoUnits(UnitFault),
    /// A fault in the units, the cost and the reward of a plan's cycle.
    Sums(SumFault),
    /// A fault in question 17.
    Twice(Twice),
    /// A fault in the pairs of a work plan.
    Pairs(PairFault),
    /// Another fault in a work plan, but for question 18.
    Work(Work),
    /// A fault in question 18.
    Question18(Question18),
    /// A fault in what the editions lay down for sheets.
    Edition(EditionFault),
    /// A fault in the layout of node numbers.
    Layout(LayoutFault),
}

const FAULTS: [(&str, Fault); 29] = [
    ("high", Fault::High),
    ("low", Fault::Low),
    ("terms", Fault::Terms),
    ("potential", Fault::Potential),
    ("node", Fault::Node),
    ("missing", Fault::Missing),
    ("entry", Fault::Entry),
    ("lasso", Fault::Lasso),
    ("rest", Fault::Rest),
    ("refusal", Fault::Refusal),
    ("exchanged", Fault::Exchanged),
    ("order", Fault::Order),
    ("idle-costs", Fault::IdleCosts),
    ("idle-free", Fault::IdleFree),
    ("only-idle", Fault::OnlyIdle),
    ("gain", Fault::Gain),
    ("idle-lasso", Fault::IdleLasso),
    ("low-free", Fault::LowFree),
    ("border", Fault::Border),
    ("none-earns", Fault::NoneEarns),
    ("write", Fault::Write),
    ("leave", Fault::Leave),
    ("unwritten", Fault::Unwritten),
    ("stale", Fault::Stale),
    ("short", Fault::Short),
    ("check", Fault::Check),
    ("step", Fault::Step),
    ("prices", Fault::Prices),
    ("number", Fault::Number),
];

/// Each fault with its name.
pub fn faults() -> Vec<(&'static str, Fault)> {
    let mut faults = FAULTS.to_vec();
    faults.extend(SMALLEST_FAULTS.map(|(name, fault)| (name, Fault::Smallest(fault))));
    faults.extend(UNIT_FAULTS.map(|(name, fault)| (name, Fault::Units(fault))));
    faults.extend(LASSO_UNIT_FAULTS.map(|(name, fault)| (name, Fault::LassoUnits(fault))));
    faults.extend(SUM_FAULTS.map(|(name, fault)| (name, Fault::Sums(fault))));
    faults.extend(TWICE_FAULTS.map(|(name, fault)| (name, Fault::Twice(fault))));
    faults.extend(PAIR_FAULTS.map(|(name, fault)| (name, Fault::Pairs(fault))));
    faults.extend(WORK_FAULTS.map(|(name, fault)| (name, Fault::Work(fault))));
    faults.extend(QUESTION_18_FAULTS.map(|(name, fault)| (name, Fault::Question18(fault))));
    faults.extend(EDITION_FAULTS.map(|(name, fault)| (name, Fault::Edition(fault))));
    faults.extend(LAYOUT_FAULTS.map(|(name, fault)| (name, Fault::Layout(fault))));
    faults
}
