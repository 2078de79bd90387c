//! Small sheets, whose runs in nths can all be searched.

use crate::random::Random;
use crate::reading::sheet::Sheet;
use crate::sheets::generate::{leave_out_copies, sheet, Shape};
use crate::sheets::idle::{lay, take_rewards, Laid};
use crate::sheets::shapes::{small_shape, tiny_shape};

pub fn make(seed: u64) -> Sheet {
    let random = &mut Random::new(seed.wrapping_add(1 << 40));
    let shape = if random.percent(30) { tiny_shape(random) } else { small_shape(random) };
    let idle = random.percent(45);
    let shape = Shape {
        bound: shape.bound.min(4),
        strict: random.pick(&[0, 0, 50, 100]),
        earning: if idle { 50 } else { 100 },
        forward: random.percent(8),
        ..shape
    };
    let mut made = sheet(random, &shape);
    if idle {
        if random.percent(40) {
            take_rewards(random, &mut made, shape.prices);
        }
        let gain = Laid::GainOrCost;
        let laid = random.pick(&[Laid::Cost, Laid::CostOrFree, Laid::Free, gain, gain]);
        lay(random, &mut made, laid, shape.prices);
        leave_out_copies(&mut made);
    }
    made
}
