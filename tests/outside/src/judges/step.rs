//! Single steps of the library against the steps taken here.

use crate::coverage::editions;
use crate::coverage::tally::Tally;
use crate::judges::numbers::{numbers, Tried};
use crate::judges::verdict::{same, Verdict};
use crate::library::answers::Planner;
use crate::library::marked::step_numbers;
use crate::random::Random;
use crate::reading::edition::Edition;
use crate::reading::expected::Expected;
use crate::reading::region::{node_of, step, Step, MOVE, UNIT};
use crate::reading::sheet::Sheet;
use planner::calls::StepNumbers;

/// The refusal, and the new node's number, the cost, the reward and the units.
pub type StepAnswer = (u8, StepNumbers);

/// What the library has to tell of an allowed step.
pub fn told(step: &Step, edition: Edition) -> StepNumbers {
    let Step { to, cost, reward, units } = *step;
    StepNumbers { number: to.number(edition), cost, reward, units }
}

pub fn expected_step(bytes_read: Result<&Sheet, u8>, number: u64, code: u16) -> StepAnswer {
    let refused = |refusal| (refusal, StepNumbers::default());
    let sheet = match bytes_read {
        Ok(sheet) => sheet,
        Err(refusal) => return refused(refusal),
    };
    match node_of(sheet, number) {
        None => refused(15),
        Some(node) => match step(sheet, &node, code) {
            None => refused(16),
            Some(taken) => (0, told(&taken, sheet.edition)),
        },
    }
}

/// The kinds of codes.
const KINDS: [&str; 4] = ["codes 0 to 31", "code 32", "code 33", "codes beyond"];

fn kind(code: u16) -> usize {
    match code {
        ..UNIT => 0,
        UNIT => 1,
        MOVE => 2,
        _ => 3,
    }
}

/// Node numbers from here on do not fit in 32 bits.
const WIDE: u64 = 1 << 32;

#[derive(Default)]
struct Counts {
    /// How often each number is answered to each kind of code.
    answers: [[u64; 18]; KINDS.len()],
    /// How many allowed steps there are from numbers of 2^32 and more, and to them.
    from_wide: u64,
    to_wide: u64,
}

impl Counts {
    fn add(&mut self, number: u64, code: u16, answer: &StepAnswer) {
        self.answers[kind(code)][usize::from(answer.0)] += 1;
        self.from_wide += u64::from(answer.0 == 0 && number >= WIDE);
        self.to_wide += u64::from(answer.1.number >= WIDE);
    }

    fn tell(&self, tally: &mut Tally) {
        for (kind, counts) in KINDS.iter().zip(&self.answers) {
            for (answer, &count) in counts.iter().enumerate().filter(|(_, &count)| count > 0) {
                tally.add(format!("step answers: {answer:>2}"), count);
                tally.add(format!("step answers to {kind}: {answer:>2}"), count);
            }
        }
        tally.add("allowed steps: from a number of 2^32 and more", self.from_wide);
        tally.add("allowed steps: to a number of 2^32 and more", self.to_wide);
    }
}

/// Every code from 0 to 40 and some far beyond, at nodes and at other numbers.
pub fn judge_steps(
    planner: &Planner,
    bytes: &[u8],
    expected: &Expected,
    random: &mut Random,
    tally: &mut Tally,
) -> Verdict<()> {
    let read = expected.sheet.as_ref().ok_or(expected.refusal);
    let mut counts = Counts::default();
    for Tried { number, unnamed } in numbers(expected, random) {
        let far = [255, 256, 256 + 32, 256 + 33, 1 << 15 | 32, 65_535, random.next() as u16];
        for code in (0..=40).chain(far) {
            let answer = expected_step(read, number, code);
            let mut numbers = step_numbers(random);
            let refusal = planner.step(bytes, number, code, &mut numbers);
            same(&format!("step {code} at {number}"), refusal, answer.0)?;
            same(&format!("numbers of step {code} at {number}"), numbers, answer.1)?;
            counts.add(number, code, &answer);
        }
        if let (Some(bit), Ok(sheet)) = (unnamed, read) {
            let (answer, _) = expected_step(read, number, MOVE);
            tally.count(editions::unnamed(sheet.edition, bit, answer));
        }
    }
    counts.tell(tally);
    Ok(())
}
