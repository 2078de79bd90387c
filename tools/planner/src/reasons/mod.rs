//! Why a plan is refused, in words.

mod components;
mod gain;
mod never;
mod search;
mod words;

pub use words::words;

use crate::fraction::counted;
use crate::sheet::refusal::Refusal;
use crate::sheet::Sheet;
use crate::stop::Stop;
use components::on_cycles;
use gain::{gain, round};
use never::why_never;
use search::{search, Graph, MOST};

#[derive(Clone, Debug, PartialEq, Eq)]
pub enum Why {
    /// 2 to 11 and 17: the record and the field.
    Sheet(Refusal),
    /// 12: how many of the first 2,048 nodes each location has.
    Crowded(Vec<usize>),
    /// 13: the locations that are reached, the edges that are never taken with the reason, and the locations that cycles pass.
    NoneEarns { reached: Vec<usize>, never: Vec<(usize, String)>, passed: Vec<usize> },
    /// 14: a walk to a loop that makes money, and the loop.
    Gain { stem: Vec<u16>, cycle: Vec<u16> },
}

/// Why the plan of a sheet that passes the check is refused with 12, 13 or 14, by the tool's own search.
pub fn searched(sheet: &Sheet, bytes: &[u8], refusal: u8) -> Result<Why, Stop> {
    let graph = search(sheet, bytes)?;
    let cyclic = on_cycles(&graph);
    let earns = cyclic.iter().any(|arc| arc.reward > 0);
    let most = counted(MOST);
    match refusal {
        12 if graph.more => Ok(Why::Crowded(counts(sheet, &graph))),
        12 => differs(refusal, format!("finds {} nodes and no more", counted(graph.nodes.len()))),
        13 | 14 if graph.more => differs(refusal, format!("finds more than {most} nodes")),
        13 if earns => differs(refusal, "finds a cycle that earns"),
        13 => {
            let passed = |i: &usize| cyclic.iter().any(|arc| graph.location(arc.from) == *i);
            let passed = (0..sheet.locations.len()).filter(passed).collect();
            Ok(Why::NoneEarns { reached: reached(sheet, &graph), never: never_taken(sheet, &graph), passed })
        }
        14 if !earns => differs(refusal, "finds no cycle that earns"),
        14 => gained(bytes, &graph),
        _ => differs(refusal, "explains 12, 13 and 14 alone"),
    }
}

fn differs<T>(refusal: u8, found: impl Into<String>) -> Result<T, Stop> {
    Err(Stop::Difference(format!("the plan is refused with {refusal}, and the tool's own search {}", found.into())))
}

fn counts(sheet: &Sheet, graph: &Graph) -> Vec<usize> {
    let of = |location: usize| (0..graph.nodes.len()).filter(|place| graph.location(*place) == location).count();
    (0..sheet.locations.len()).map(of).collect()
}

fn reached(sheet: &Sheet, graph: &Graph) -> Vec<usize> {
    let counts = counts(sheet, graph);
    (0..counts.len()).filter(|location| counts[*location] > 0).collect()
}

fn never_taken(sheet: &Sheet, graph: &Graph) -> Vec<(usize, String)> {
    let taken = |edge: usize| graph.arcs.iter().any(|arc| usize::from(arc.code) == edge);
    let edges = sheet.edges.iter().enumerate().filter(|(i, _)| !taken(*i));
    edges.map(|(i, edge)| (i, why_never(sheet, graph, edge))).collect()
}

/// The loop is stepped and summed once more, apart from the search.
fn gained(bytes: &[u8], graph: &Graph) -> Result<Why, Stop> {
    let Some((stem, cycle)) = gain(graph) else { return differs(14, "finds no loop without reward that costs less than 0") };
    match round(bytes, &stem, &cycle) {
        Some(round) if round.cost < 0 && round.reward == 0 => Ok(Why::Gain { stem, cycle }),
        Some(round) => differs(14, format!("finds a loop that costs {} and earns {}", round.cost, round.reward)),
        None => differs(14, "finds a loop that cannot be stepped or meets a node twice"),
    }
}
