//! A schedule and its replay, which have to agree row by row.

use crate::run::{of_schedule, replay, Loop};
use crate::schedule::{Row, Schedule, Sum};
use crate::sheet::Sheet;
use crate::stop::Stop;

/// Whether a row begins when the replay does, takes as long, and costs and earns as much.
fn agrees(row: &Row, before: Sum, after: Sum) -> bool {
    let took = Sum { time: row.wait, cost: row.cost, reward: row.reward };
    row.at == before.time && took == after - before
}

/// What the cycle of a schedule takes, costs and earns, by replay. It has to earn.
pub fn earning(sheet: &Sheet, schedule: &Schedule) -> Result<Loop, Stop> {
    match agreed(sheet, schedule)? {
        around if around.sum.reward > 0 => Ok(around),
        around => Err(Stop::Difference(format!("the cycle of the schedule has {around}, and earns nothing"))),
    }
}

/// What the cycle of a schedule takes, costs and earns, by replay.
pub fn agreed(sheet: &Sheet, schedule: &Schedule) -> Result<Loop, Stop> {
    let replayed = replay(sheet, &of_schedule(schedule))
        .map_err(|wrong| Stop::Difference(format!("row {} of the schedule: {}", 1 + wrong.place / 2, wrong.fault)))?;
    for (i, row) in schedule.rows().enumerate() {
        // a row is two members, a delay and an edge
        if !agrees(row, replayed.passed[2 * i], replayed.passed[2 * i + 2]) {
            return Err(Stop::Difference(format!("row {} of the schedule is {row:?}, and its replay differs", i + 1)));
        }
    }
    Ok(replayed.around)
}

#[cfg(test)]
mod tests {
    use super::*;
    use crate::schedule::{of_waits, Visit};
    use crate::text::parse;

    #[test]
    fn each_figure_of_a_row_has_to_agree() {
        let text = "clocks x\nlocation a\n  x <= 2\n  cost 3\n  reward 1\nedge e: a -> a\n  reset x\n  cost 5\n  reward 2\n";
        let sheet = parse(text).expect("a sheet");
        let visits = [Visit { wait: 1, edge: 0 }, Visit { wait: 2, edge: 0 }];
        let schedule = of_waits(&sheet, 1, &visits[..1], &visits[1..]);
        assert_eq!(agreed(&sheet, &schedule), Ok(Loop { nths: 1, sum: Sum { time: 2, cost: 11, reward: 4 } }));
        assert_eq!(earning(&sheet, &schedule), agreed(&sheet, &schedule));
        let idle = parse(&text.replace("  reward 1\n", "").replace("  reward 2\n", "")).expect("a sheet");
        let around = earning(&idle, &of_waits(&idle, 1, &visits[..1], &visits[1..]));
        assert_eq!(
            around,
            Err(Stop::Difference("the cycle of the schedule has cost 11, reward 0, ratio none, and earns nothing".to_string()))
        );
        let alter: [fn(&mut Row); 4] = [|row| row.at += 1, |row| row.cost += 1, |row| row.reward -= 1, |row| row.wait -= 1];
        for alter in alter {
            let (mut stem, mut cycle) = (schedule.clone(), schedule.clone());
            alter(&mut stem.stem[0]);
            alter(&mut cycle.cycle[0]);
            assert!(matches!(agreed(&sheet, &stem), Err(Stop::Difference(_))));
            assert!(matches!(agreed(&sheet, &cycle), Err(Stop::Difference(_))));
        }
    }
}
