//! The kinds of sheets: one seed gives one sheet.

use crate::random::Random;
use crate::reading::edition::Edition;
use crate::reading::write::write;
use crate::sheets::built::{dear_ring, long, ring};
use crate::sheets::damage::{damage, damage_more, noise};
use crate::sheets::exact::exact;
use crate::sheets::generate::{leave_out_copies, sheet, Prices, Shape};
use crate::sheets::idle::{lay, take_rewards, take_some_rewards, Laid};
use crate::sheets::shapes::{shape_of, small_shape};
use crate::sheets::strict::{closed, one_strict, strict_and_fault};
use crate::sheets::twice::{alike, all_alike, twice, twice_and_fault};

/// The kind with an edge entered twice and one fault more.
pub const TWICE_AND_FAULT: &str = "edge twice and a fault";

/// The kind with something strict and a fault that the check finds.
pub const STRICT_AND_FAULT: &str = "strict and a fault";

/// Each kind and how many of a thousand sheets are of it.
const KINDS: [(&str, u64); 25] = [
    ("tiny", 40),
    ("small", 55),
    ("strict", 30),
    ("closed", 75),
    ("one strict", 85),
    (STRICT_AND_FAULT, 30),
    ("large", 40),
    ("border", 70),
    ("dense", 20),
    ("too many", 25),
    ("no cycle", 40),
    ("idle, costs", 55),
    ("idle, free", 40),
    ("idle, gains", 75),
    ("extreme", 30),
    ("ring", 20),
    ("dear ring", 10),
    ("long", 20),
    ("edge twice", 55),
    (TWICE_AND_FAULT, 30),
    ("edges alike", 40),
    ("all edges alike", 5),
    ("damaged", 60),
    ("damaged more", 40),
    ("noise", 10),
];

fn border_bytes(random: &mut Random, dense: bool) -> Vec<u8> {
    let (first, second) = (Edition::First, Edition::Second);
    let some = [(first, 2), (first, 2), (first, 3), (second, 2), (second, 3), (second, 4)];
    let (edition, clocks) = random.pick(&some);
    let shape = Shape {
        edition,
        clocks,
        locations: if dense { 1 } else { 2 + random.below(3) },
        bound: match clocks {
            2 => 12,
            3 => random.within(3, 5),
            _ => random.within(1, 3),
        },
        strict: random.pick(&[0, 40]),
        prices: random.pick(&[Prices::Small, Prices::Wide, Prices::Extreme]),
        guards: 0,
        earning: 100,
        ..small_shape(random)
    };
    let near = random.percent(60);
    let nodes = if near { random.within(2046, 2051) } else { random.within(1950, 2150) };
    let made = exact(random, &shape, nodes as usize, if dense { 32 } else { 20 });
    // Where no padding came out even, the shape's own sheet takes its place.
    let mut made = made.unwrap_or_else(|| sheet(random, &shape));
    if random.percent(30) {
        take_some_rewards(random, &mut made);
        lay(random, &mut made, Laid::CostOrFree, shape.prices);
        leave_out_copies(&mut made);
    }
    write(&made).bytes
}

/// Half of the sheets or so have cycles that earn beside the idle ones.
fn idle_bytes(random: &mut Random, laid: &[Laid]) -> Vec<u8> {
    let shape = shape_of(random, "idle");
    let mut made = sheet(random, &shape);
    if random.percent(40) {
        take_rewards(random, &mut made, shape.prices);
    }
    let laid = random.pick(laid);
    lay(random, &mut made, laid, shape.prices);
    leave_out_copies(&mut made);
    write(&made).bytes
}

fn damaged_bytes(random: &mut Random, more: bool) -> Vec<u8> {
    let shape = shape_of(random, "small");
    let made = write(&sheet(random, &shape));
    if more {
        damage_more(random, &made)
    } else {
        damage(random, &made)
    }
}

/// The kind and the bytes of the sheet that has this seed.
pub fn generate(seed: u64) -> (&'static str, Vec<u8>) {
    let random = &mut Random::new(seed);
    let mut at = random.below(1000) as u64;
    let chosen = KINDS.iter().find(|(_, share)| {
        let here = at < *share;
        at = at.saturating_sub(*share);
        here
    });
    let kind = chosen.expect("the shares add up to a thousand").0;
    let bytes = match kind {
        "border" => border_bytes(random, false),
        "dense" => border_bytes(random, true),
        "idle, costs" => idle_bytes(random, &[Laid::Cost, Laid::CostOrFree]),
        "idle, free" => idle_bytes(random, &[Laid::Free]),
        "idle, gains" => idle_bytes(random, &[Laid::GainOrCost]),
        TWICE_AND_FAULT => twice_and_fault(random),
        "edges alike" => alike(random),
        "closed" => write(&closed(random)).bytes,
        "one strict" => write(&one_strict(random)).bytes,
        STRICT_AND_FAULT => strict_and_fault(random),
        "damaged" => damaged_bytes(random, false),
        "damaged more" => damaged_bytes(random, true),
        "noise" => noise(random),
        _ => {
            let shape = shape_of(random, kind);
            let made = match kind {
                "edge twice" => twice(random, &shape),
                "all edges alike" => all_alike(random, &shape),
                "ring" => ring(random, &shape),
                "dear ring" => dear_ring(random, &shape),
                "long" => long(random, &shape),
                _ => sheet(random, &shape),
            };
            write(&made).bytes
        }
    };
    (kind, bytes)
}
