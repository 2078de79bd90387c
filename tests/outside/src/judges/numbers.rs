//! Numbers to step from: those of nodes, and others that come near.

use crate::random::Random;
use crate::reading::edition::{Edition, MOST_CLOCKS};
use crate::reading::expected::Expected;
use crate::reading::region::Node;
use crate::reading::sheet::Sheet;
use std::collections::BTreeSet;

/// A number to step from.
pub struct Tried {
    pub number: u64,
    /// The bit that is set in it besides those of a node, where it is made so.
    pub unnamed: Option<u32>,
}

/// The bits that are clear in the number of each node: those of clocks that the sheet has not, and
/// those above the location.
pub fn unnamed_bits(edition: Edition, clocks: usize) -> Vec<u32> {
    let location = edition.location_bit();
    (edition.clock_bit(clocks)..location).chain(location + 4..u64::BITS).collect()
}

/// The classes of random fractions, half of the time of different ones that are not 0.
fn classes(random: &mut Random, clocks: usize) -> Vec<u8> {
    let values = random.pick(&[clocks + 1, 1000]);
    let fractions: Vec<usize> = (0..clocks).map(|_| random.below(values)).collect();
    let rank = |fraction: usize| {
        let up_to = fractions.iter().filter(|&&other| 0 < other && other <= fraction);
        up_to.collect::<BTreeSet<_>>().len() as u8
    };
    fractions.iter().map(|&fraction| rank(fraction)).collect()
}

/// A number with the layout of a node's, of which many are those of nodes.
fn likely_number(sheet: &Sheet, random: &mut Random) -> u64 {
    let location = random.below(sheet.locations.len());
    let mut node = Node { location, whole: [0; MOST_CLOCKS], class: [0; MOST_CLOCKS], corner: 0 };
    let largest = (1 << sheet.edition.rank_bits()) - 1;
    let loose = random.percent(30);
    for (j, class) in classes(random, sheet.clocks).into_iter().enumerate() {
        let c = usize::from(sheet.locations[location].upper[j] / 2);
        node.whole[j] = random.below(c + if loose { 3 } else { 1 }).min(15) as u8;
        node.class[j] = if loose { random.within(0, largest) as u8 } else { class };
    }
    let most = node.class.into_iter().max().unwrap_or(0) + u8::from(loose);
    node.corner = random.within(0, i64::from(most)).min(largest) as u8;
    node.number(sheet.edition)
}

fn plain(number: u64) -> Tried {
    Tried { number, unnamed: None }
}

pub fn numbers(expected: &Expected, random: &mut Random) -> Vec<Tried> {
    let (sheet, graph) = match (&expected.sheet, &expected.graph) {
        (Some(sheet), Some(graph)) => (sheet, graph),
        _ => return vec![plain(0), plain(random.next())],
    };
    let reachable = |random: &mut Random| random.pick(&graph.numbers);
    let location = sheet.edition.location_bit();
    let flipped = reachable(random) ^ 1 << random.below(location as usize + 4);
    let mut numbers = vec![reachable(random), reachable(random), reachable(random), flipped];
    numbers.extend((0..4).map(|_| likely_number(sheet, random)));
    numbers.extend([random.next(), random.next() & ((1 << location) - 1)]);
    let mut tried: Vec<Tried> = numbers.into_iter().map(plain).collect();
    let bit = random.pick(&unnamed_bits(sheet.edition, sheet.clocks));
    tried.push(Tried { number: reachable(random) | 1 << bit, unnamed: Some(bit) });
    tried
}
