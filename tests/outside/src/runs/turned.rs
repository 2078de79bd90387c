//! The pairs of a lasso, turned so that its cycle starts just after its first edge.

use crate::reading::region::UNIT;
use crate::runs::replay::Pair;

/// The pairs of codes of which the last is an edge: each edge ends one.
pub fn pairs(codes: &[u16]) -> Vec<Pair> {
    let units = |part: &[u16]| part.iter().filter(|&&code| code == UNIT).count() as u16;
    let parts = codes.split_inclusive(|&code| code < UNIT);
    parts.map(|part| (units(part), part[part.len() - 1])).collect()
}

/// The codes of a cycle up to its first edge, with it, and those after it.
pub fn at_first_edge(cycle: &[u16]) -> Option<(&[u16], &[u16])> {
    let first = cycle.iter().position(|&code| code < UNIT)?;
    Some(cycle.split_at(first + 1))
}

/// The pairs of the stem, which grows by the part up to that edge, and those of the cycle; none where
/// the cycle has no edge.
pub fn turned(stem: &[u16], cycle: &[u16]) -> Option<(Vec<Pair>, Vec<Pair>)> {
    let (part, rest) = at_first_edge(cycle)?;
    Some((pairs(&[stem, part].concat()), pairs(&[rest, part].concat())))
}
