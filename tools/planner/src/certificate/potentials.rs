//! Rules of the potentials. Where they hold, no cycle of listed nodes is below the ratio: round a cycle the potentials cancel, and what
//! is left is that its weight is 0 or more.

use super::reading::node_words;
use super::verify::{broken, Broken};
use super::Certificate;
use crate::nodes::Arc;

/// Every potential lies strictly within this of 0.
const BEYOND: i128 = 1_000_000_000_000_000;

pub fn hold(certificate: &Certificate, arcs: &[Arc]) -> Result<(), Broken> {
    let Certificate { sheet, nodes, potentials, .. } = certificate;
    if potentials.len() != nodes.len() {
        return broken("potential-count", format!("{} potentials for {} nodes", potentials.len(), nodes.len()));
    }
    if let Some((node, large)) = nodes.iter().zip(potentials).find(|(_, potential)| i128::from(**potential).abs() >= BEYOND) {
        return broken("potential-range", format!("the potential {large} of {} is not within 10^15 of 0", node_words(sheet, *node)));
    }
    arcs.iter().try_for_each(|arc| kept(certificate, arc))
}

fn kept(certificate: &Certificate, arc: &Arc) -> Result<(), Broken> {
    let Certificate { sheet, nodes, potentials, .. } = certificate;
    let weight = certificate.weight(arc.cost, arc.reward);
    let [from, to] = [arc.from, arc.to].map(|place| potentials[place]);
    if i128::from(to) <= i128::from(from) + weight {
        return Ok(());
    }
    let [node, next] = [arc.from, arc.to].map(|place| node_words(sheet, nodes[place]));
    broken("potentials-hold", format!("code {} leads from {node} to {next}: {to} is above {from} plus the weight {weight}", arc.code))
}
