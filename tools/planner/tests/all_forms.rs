//! Seeded sheets with every field present or absent: bytes to text and back are the same bytes,
//! and what a byte damages is refused or still comes back.

mod common;

use common::{push_once, Dice};
use tool::sheet::{decode::decode, describe::describe, edition::Edition, encode::encode, *};
use tool::text::parse;

impl Dice {
    fn byte(&mut self, least: u64) -> u8 {
        (least + self.below(26 - least)) as u8
    }

    fn cost(&mut self) -> i16 {
        [0, 1, -1, 10000, -10000, 256, -256, self.below(10000) as i16][self.below(8) as usize]
    }

    fn reward(&mut self) -> u16 {
        [0, 1, 10000, 255, 256, self.below(10000) as u16][self.below(6) as usize]
    }

    fn bytes(&mut self, clocks: usize, least: u64, always: bool) -> Bytes {
        let mut found = Bytes::default();
        for slot in found.iter_mut().take(clocks) {
            *slot = (always || self.below(2) == 0).then(|| self.byte(least));
        }
        found
    }

    fn sheet(&mut self) -> Sheet {
        let mut sheet = self.blank_sheet();
        let (locations, clocks, edges) = (1 + self.below(12) as usize, sheet.clocks.len(), self.below(33) as usize);
        for i in 0..locations {
            // the first location admits all clocks at 0
            let upper = self.bytes(clocks, u64::from(i == 0), true);
            sheet.locations.push(Location { name: format!("l{i}"), cost: self.cost(), reward: self.reward(), upper });
        }
        for _ in 0..edges {
            let i = sheet.edges.len();
            let (source, target) = (self.below(locations as u64) as usize, self.below(locations as u64) as usize);
            let (lower, upper) = (self.bytes(clocks, 1, false), self.bytes(clocks, 0, false));
            let (cost, reward, reset) = (self.cost(), self.reward(), self.below(1 << clocks) as u8);
            push_once(&mut sheet, Edge { name: format!("e{i}"), source, target, cost, reward, reset, lower, upper });
        }
        sheet
    }
}

fn by_text(bytes: &[u8]) -> Vec<u8> {
    encode(&parse(&describe(&decode(bytes).unwrap())).unwrap())
}

#[test]
fn sheets_come_back() {
    let (mut dice, mut counts) = (Dice(1), [[0; 4]; 2]);
    for turn in 0..500 {
        let sheet = dice.sheet();
        let bytes = encode(&sheet);
        assert_eq!(decode(&bytes).unwrap(), sheet, "turn {turn}");
        assert_eq!(by_text(&bytes), bytes, "turn {turn}");
        counts[usize::from(sheet.edition == Edition::Second)][sheet.clocks.len() - 1] += 1;
    }
    assert!(counts[0][..3].iter().chain(&counts[1]).all(|count| *count > 30), "{counts:?}");
}

#[test]
fn damaged_bytes_are_refused_or_come_back() {
    let mut dice = Dice(2);
    let (mut refused, mut kept) = (0, 0);
    for turn in 0..4000 {
        let mut bytes = encode(&dice.sheet());
        let at = dice.below(bytes.len() as u64) as usize;
        bytes[at] ^= 1 << dice.below(8);
        match decode(&bytes) {
            Ok(_) => {
                assert_eq!(by_text(&bytes), bytes, "turn {turn}");
                kept += 1;
            }
            Err(refusal) => {
                let asked = (3..=11).contains(&refusal.question) || refusal.question == 17;
                assert!(asked && refusal.at <= bytes.len(), "turn {turn}: {refusal}");
                refused += 1;
            }
        }
    }
    assert!(refused > 200 && kept > 200, "{refused} refused, {kept} kept");
}
