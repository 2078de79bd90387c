//! Walks of least weight from the start: those by tight steps, from a node's potential to exactly that of the next.

use crate::certificate::Certificate;
use crate::nodes::{node, steps, Node};
use crate::sheet::Sheet;
use crate::stop::Stop;
use planner::Step;
use std::collections::{HashMap, VecDeque};

/// The codes of such a walk to a node of smallest potential, breadth first; none where there is none that takes edges, and ends, only at
/// nodes of this kind.
pub fn least_walk(sheet: &Sheet, certificate: &Certificate, kind: fn(&Node) -> bool) -> Result<Option<Vec<u16>>, Stop> {
    let least = certificate.smallest_potential();
    let (mut found_by, mut ahead) = (HashMap::from([(0, None)]), VecDeque::from([0]));
    while let Some(number) = ahead.pop_front() {
        let of_kind = kind(&node(sheet.edition, number));
        if of_kind && potential(certificate, number)? == least {
            return Ok(Some(codes_to(&found_by, number)));
        }
        for (code, step) in steps(sheet, &certificate.sheet, number)? {
            let may_be_taken = of_kind || code >= planner::UNIT;
            if may_be_taken && is_tight(certificate, number, &step)? && !found_by.contains_key(&step.node) {
                found_by.insert(step.node, Some((number, code)));
                ahead.push_back(step.node);
            }
        }
    }
    Ok(None)
}

fn is_tight(certificate: &Certificate, number: u64, step: &Step) -> Result<bool, Stop> {
    let [from, to] = [potential(certificate, number)?, potential(certificate, step.node)?].map(i128::from);
    Ok(to == from + certificate.weight(step.cost, step.reward))
}

fn potential(certificate: &Certificate, number: u64) -> Result<i64, Stop> {
    match certificate.nodes.binary_search(&number) {
        Ok(place) => Ok(certificate.potentials[place]),
        Err(_) => Err(Stop::Difference(format!("node {number} is reached, and is not among the nodes of the plan"))),
    }
}

/// Along the steps that found the nodes.
fn codes_to(found_by: &HashMap<u64, Option<(u64, u16)>>, mut number: u64) -> Vec<u16> {
    let mut codes = Vec::new();
    while let Some((before, code)) = found_by[&number] {
        codes.push(code);
        number = before;
    }
    codes.reverse();
    codes
}
