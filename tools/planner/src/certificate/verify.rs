//! The rules of a certificate, by the proved step alone. Nothing is searched.

use super::{lasso, listed, potentials, Certificate};

/// The first rule that fails, and where.
#[derive(Debug, PartialEq, Eq)]
pub struct Broken {
    pub rule: &'static str,
    pub what: String,
}

/// The names of the rules, in the order in which they are asked.
pub const RULES: [&str; 18] = [
    // of the sheet: the certificate is of this one, and it passes the check
    "same-sheet",
    "checked-sheet",
    // of the node list: at most 2,048, rising, each a node, with the start and every successor
    "node-count",
    "nodes-rise",
    "nodes-of-sheet",
    "start-listed",
    "successors-listed",
    // of ratio and lasso: lengths, ranges and lowest terms; a walk, a cycle that closes, earns and has the ratio
    "lasso-length",
    "ratio-range",
    "lowest-terms",
    "stem-allowed",
    "cycle-allowed",
    "cycle-closes",
    "cycle-earns",
    "cycle-has-ratio",
    // of the potentials: as many as nodes, within 10^15, and no step leads above what it weighs
    "potential-count",
    "potential-range",
    "potentials-hold",
];

pub(super) fn broken<T>(rule: &'static str, what: String) -> Result<T, Broken> {
    Err(Broken { rule, what })
}

pub fn verify(sheet: &[u8], certificate: &Certificate) -> Result<(), Broken> {
    same(sheet, &certificate.sheet)?;
    if let Err(refusal) = planner::check(sheet) {
        return broken("checked-sheet", format!("the sheet is {refusal}"));
    }
    let arcs = listed::arcs(sheet, &certificate.nodes)?;
    lasso::has_ratio(sheet, certificate)?;
    potentials::hold(certificate, &arcs)
}

fn same(sheet: &[u8], other: &[u8]) -> Result<(), Broken> {
    if sheet.len() != other.len() {
        return broken("same-sheet", format!("the certificate's sheet has {} bytes, and this one {}", other.len(), sheet.len()));
    }
    match sheet.iter().zip(other).position(|(here, there)| here != there) {
        Some(at) => broken("same-sheet", format!("byte {at} is {} in the certificate's sheet, and {} in this one", other[at], sheet[at])),
        None => Ok(()),
    }
}
