//! The check of a sheet, and of damaged variants of it.

use crate::coverage::editions::{count_long, flipped, stray};
use crate::coverage::tally::Tally;
use crate::hexadecimal;
use crate::judges::verdict::{same, Verdict};
use crate::library::answers::Planner;
use crate::random::Random;
use crate::reading::expected::Expected;
use crate::reading::sheet::{read, Sheet};
use crate::reading::write::{write, Written};
use crate::sheets::damage::{damage, damage_more};
use crate::sheets::variants::{other_edition, too_long, with_stray_bit};

const VARIANTS: usize = 10;

/// What is answered to a variant.
fn judge_variant(planner: &Planner, variant: &[u8]) -> Verdict<u8> {
    let answer = read(variant).err().unwrap_or(0);
    same("check of a variant", planner.check(variant), answer)
        .map_err(|message| format!("{message}\nvariant {}", hexadecimal::write(variant)))?;
    Ok(answer)
}

/// The variants that try what the sheet's edition lays down.
fn judge_borders(
    planner: &Planner,
    sheet: &Sheet,
    written: &Written,
    random: &mut Random,
    tally: &mut Tally,
) -> Verdict<()> {
    let answer = judge_variant(planner, &other_edition(written))?;
    tally.count(flipped(sheet.edition, sheet.clocks, answer));
    let (variant, record, bit) = with_stray_bit(random, sheet, written);
    let answer = judge_variant(planner, &variant)?;
    tally.count(stray(sheet.edition, record, bit, answer));
    judge_variant(planner, &too_long(written)).map(|_| ())
}

pub fn judge_check(
    planner: &Planner,
    bytes: &[u8],
    expected: &Expected,
    random: &mut Random,
    tally: &mut Tally,
) -> Verdict<()> {
    let sheet = match &expected.sheet {
        None => return same("check", planner.check(bytes), expected.refusal),
        Some(sheet) => sheet,
    };
    same("check", planner.check(bytes), 0)?;
    let written = write(sheet);
    for place in 0..VARIANTS {
        let variant =
            if place % 2 == 0 { damage(random, &written) } else { damage_more(random, &written) };
        let answer = judge_variant(planner, &variant)?;
        tally.count(format!("damaged variants, check answers: {answer:>2}"));
        count_long(tally, &variant, answer);
    }
    judge_borders(planner, sheet, &written, random, tally)
}
