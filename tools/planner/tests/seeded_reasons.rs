//! Seeded sheets with small bounds: wherever a plan is refused with 12, 13 or 14 the search finds its reason, and where it is accepted
//! its certificate verifies and the search finds no reason.

mod common;

use common::{push_once, Dice};
use std::collections::{BTreeSet, VecDeque};
use tool::certificate::{read::read, verify::verify, written, Certificate};
use tool::nodes::node;
use tool::reasons::{searched, words, Why};
use tool::sheet::edition::Edition;
use tool::sheet::encode::encode;
use tool::sheet::{Bytes, Edge, Location, Sheet};
use tool::stop::Stop;

impl Dice {
    /// A byte for each clock, or for one in four of them.
    fn bytes(&mut self, clocks: usize, least: u64, most: u64, always: bool) -> Bytes {
        let mut found = Bytes::default();
        for slot in found.iter_mut().take(clocks) {
            *slot = (always || self.below(4) == 0).then(|| (least + self.below(most - least + 1)) as u8);
        }
        found
    }

    fn edge(&mut self, name: String, locations: usize, clocks: usize, most: u64) -> Edge {
        let [source, target] = [0, 0].map(|_: u8| self.below(locations as u64) as usize);
        let (lower, upper) = (self.bytes(clocks, 1, most / 2, false), self.bytes(clocks, 1, most, false));
        let cost = self.below(24) as i16 - 3;
        let reward = if self.below(2) == 0 { self.below(5) as u16 } else { 0 };
        Edge { name, source, target, cost, reward, reset: self.below(1 << clocks) as u8, lower, upper }
    }

    fn sheet(&mut self) -> Sheet {
        let mut sheet = self.blank_sheet();
        let (locations, clocks, edges) = (1 + self.below(3) as usize, sheet.clocks.len(), 2 + self.below(8) as usize);
        let most = [7, 9, 17, 25][self.below(4) as usize];
        for i in 0..locations {
            let (cost, reward) = (self.below(5) as i16 - 1, self.below(8).saturating_sub(6) as u16);
            let upper = self.bytes(clocks, most / 2, most, true);
            sheet.locations.push(Location { name: format!("l{i}"), cost, reward, upper });
        }
        for i in 0..edges {
            push_once(&mut sheet, self.edge(format!("e{i}"), locations, clocks, most));
        }
        sheet
    }
}

/// The locations that are reached and the edges that are taken, every code being tried at every node.
fn everything(edition: Edition, bytes: &[u8]) -> (BTreeSet<usize>, BTreeSet<usize>) {
    let (mut seen, mut ahead) = (BTreeSet::from([0]), VecDeque::from([0]));
    let mut taken = BTreeSet::new();
    while let Some(number) = ahead.pop_front() {
        for code in 0..=planner::MOVE {
            let Ok(step) = planner::step(bytes, number, code) else { continue };
            taken.insert(usize::from(code));
            if seen.insert(step.node) {
                ahead.push_back(step.node);
            }
        }
    }
    (seen.into_iter().map(|number| node(edition, number).location).collect(), taken)
}

/// What a loop costs and earns, if the codes are a lasso.
fn sums(bytes: &[u8], stem: &[u16], cycle: &[u16]) -> (i64, i64) {
    let next = |node: u64, code: &u16| planner::step(bytes, node, *code).expect("an allowed step");
    let start = stem.iter().fold(0, |node, code| next(node, code).node);
    let (mut node, mut cost, mut reward) = (start, 0, 0);
    for code in cycle {
        let step = next(node, code);
        (node, cost, reward) = (step.node, cost + step.cost, reward + step.reward);
    }
    assert!(node == start && !cycle.is_empty());
    (cost, reward)
}

fn explained(sheet: &Sheet, bytes: &[u8], refusal: u8, turn: usize) {
    let why = searched(sheet, bytes, refusal).unwrap_or_else(|stop| panic!("turn {turn}: {}", stop.message()));
    assert!(words(sheet, &why)[0].contains("by the tool's own search"), "turn {turn}");
    match (refusal, why) {
        (12, Why::Crowded(counts)) => assert_eq!(counts.iter().sum::<usize>(), 2048, "turn {turn}"),
        (13, Why::NoneEarns { reached, never, .. }) => {
            let never: Vec<usize> = never.into_iter().map(|(edge, _)| edge).collect();
            let (locations, taken) = everything(sheet.edition, bytes);
            assert_eq!(reached, Vec::from_iter(locations), "turn {turn}");
            assert_eq!(never, Vec::from_iter((0..sheet.edges.len()).filter(|edge| !taken.contains(edge))), "turn {turn}");
        }
        (14, Why::Gain { stem, cycle }) => {
            let (cost, reward) = sums(bytes, &stem, &cycle);
            assert!(cost < 0 && reward == 0, "turn {turn}: cost {cost}, reward {reward}");
        }
        (_, other) => panic!("turn {turn}: refused {refusal}, {other:?}"),
    }
}

#[test]
fn each_refusal_has_its_reason() {
    let (mut dice, mut planner) = (Dice(9), planner::Planner::new());
    // of sheets with up to three clocks, and with four
    let mut counts = [[0; 19]; 2];
    for turn in 0..400 {
        let sheet = dice.sheet();
        let bytes = encode(&sheet);
        let counts = &mut counts[usize::from(sheet.clocks.len() == 4)];
        match planner.plan(&bytes) {
            Err(refusal) => {
                explained(&sheet, &bytes, refusal.number(), turn);
                counts[usize::from(refusal.number())] += 1;
            }
            Ok(plan) => {
                let certificate = Certificate::of(&bytes, &plan);
                assert_eq!(verify(&bytes, &certificate), Ok(()), "turn {turn}");
                assert_eq!(read(&written(&certificate)), Ok(certificate), "turn {turn}");
                for refusal in [12, 13, 14] {
                    assert!(matches!(searched(&sheet, &bytes, refusal), Err(Stop::Difference(_))), "turn {turn}: {refusal}");
                }
                counts[0] += 1;
            }
        }
    }
    for (counts, least) in counts.into_iter().zip([20, 2]) {
        assert!([0, 12, 13, 14].into_iter().all(|number| counts[number] >= least), "{counts:?}");
    }
}
