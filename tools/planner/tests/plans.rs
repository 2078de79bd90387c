//! Plans are examined before they are shown: what differs is told, and what is shown fits together.

mod common;

use common::{closed, source, Dice};
use tool::input::Held;
use tool::plan::text::text;
use tool::plan::{json::json, lasso::examined, planned, planned_in_full, Buffers, NoRun, Outcome, Plan, Planned, Standing};
use tool::schedule::{sum, Sum};
use tool::sheet::encode::encode;
use tool::source::Source;
use tool::stop::Stop;

fn plan(source: Source, finer: Option<i64>) -> Planned {
    match planned(&mut Buffers::default(), &Held::Sheet(source), finer) {
        Ok(Outcome::Planned(planned)) => *planned,
        other => panic!("{other:?}"),
    }
}

/// What is told of the plan of a sheet that is altered so.
fn told(name: &str, alter: impl FnOnce(&mut Plan)) -> String {
    let mut plan = plan(source(name), None).plan;
    examined(&plan).expect("in order as it is");
    alter(&mut plan);
    match examined(&plan) {
        Err(Stop::Difference(what)) => what,
        other => panic!("{other:?}"),
    }
}

#[test]
fn a_plan_that_lies_is_told() {
    let lies = [
        told("bench.txt", |plan| plan.certificate.p += 1),
        told("bench.txt", |plan| plan.certificate.q += 1),
        told("bench.txt", |plan| plan.certificate.cycle.truncate(1)),
        told("bench.txt", |plan| plan.certificate.stem.push(0)),
        told("bench.txt", |plan| plan.certificate.nodes.truncate(2)),
        told("bench.txt", |plan| plan.certificate.cycle.clear()),
        told("bench.txt", |plan| plan.cycle.time += 1),
        told("bench.txt", |plan| plan.cycle.cost = 3),
        told("bench.txt", |plan| plan.cycle.reward = 1),
        told("bench.txt", |plan| plan.certificate.cycle = plan.certificate.cycle.repeat(2)),
    ];
    let wanted = [
        "the cycle costs 6 and earns 2, and the ratio is 4/1",
        "the cycle costs 6 and earns 2, and the ratio is 3/2",
        "the cycle of the lasso begins at node",
        "code 0 of the lasso at node",
        "is not among the nodes of the plan",
        "the cycle costs 0 and earns 0, and the ratio is 3/1",
        "the cycle of the lasso takes 1, costs 6, earns 2, and the library answers that it takes 2, costs 6, earns 2",
        "the cycle of the lasso takes 1, costs 6, earns 2, and the library answers that it takes 1, costs 3, earns 2",
        "the cycle of the lasso takes 1, costs 6, earns 2, and the library answers that it takes 1, costs 6, earns 1",
        "the cycle of the lasso takes 2, costs 12, earns 4, and the library answers that it takes 1, costs 6, earns 2",
    ];
    for (lie, wanted) in lies.iter().zip(wanted) {
        assert!(lie.contains(wanted), "'{lie}' lacks '{wanted}'");
    }
}

#[test]
fn what_is_shown_fits_the_sheet() {
    let standing = |name: &str, finer| plan(source(name), finer).standing;
    assert_eq!(standing("bench.txt", None), Standing::Work);
    assert_eq!(standing("bench.txt", Some(7)), Standing::Work);
    assert_eq!(standing("bench-strict-bound.txt", None), Standing::Exact);
    assert_eq!(standing("beacon.txt", Some(2)), Standing::Near);
    let no_run = |what: &str| NoRun { row: 1, what: what.to_string() };
    assert_eq!(standing("beacon.txt", None), Standing::Corners(no_run("at edge 'begin' x = 2; expected x > 2"), Some(2)));
    assert_eq!(standing("never-back.txt", None), Standing::Corners(no_run("at edge 'leave' x = 2; expected x < 2"), None));
    let coarse = |name: &str, asked| planned(&mut Buffers::default(), &Held::Sheet(source(name)), Some(asked));
    assert!(matches!(coarse("beacon.txt", 1), Ok(Outcome::Coarse { asked: 1, least: Some(2) })));
    assert!(matches!(coarse("never-back.txt", 1000), Ok(Outcome::Coarse { asked: 1000, least: None })));
}

#[test]
fn seeded_plans_are_shown_without_a_difference() {
    let (mut dice, mut buffers, mut counts, mut four) = (Dice(4), Buffers::default(), [0; 7], [0; 7]);
    for turn in 0..6000 {
        let sheet = match turn % 3 {
            0 => dice.small_sheet(),
            1 => dice.ring_sheet(),
            _ => closed(dice.small_sheet()),
        };
        let has_four = sheet.clocks.len() == 4;
        let held = Held::Sheet(Source { name: format!("turn {turn}"), bytes: encode(&sheet), sheet });
        let finer = [None, Some(1), Some(2), Some(10)][turn / 3 % 4];
        let outcome = planned_in_full(&mut buffers, &held, finer).unwrap_or_else(|stop| panic!("turn {turn}: {stop:?}"));
        assert!(text(&held, &outcome).ends_with('\n') && json(&held, &outcome).ends_with('}'), "turn {turn}");
        let place = match outcome {
            Outcome::Refused { .. } => 0,
            Outcome::Coarse { least, .. } => {
                assert!(least != finer, "turn {turn}");
                5
            }
            Outcome::Planned(planned) => {
                let cycle = sum(&planned.schedule.cycle);
                assert_eq!(cycle, planned.replayed.sum, "turn {turn}");
                assert!(cycle.reward > 0, "turn {turn}");
                let (n, Sum { time, cost, reward }) = (planned.schedule.nths, planned.plan.cycle);
                let own = |place: usize| {
                    assert_eq!(cycle, Sum { time: n * time, cost: n * cost, reward: n * reward }, "turn {turn}");
                    place
                };
                match planned.standing {
                    Standing::Work => own(1),
                    Standing::Exact => own(2),
                    Standing::Corners(..) => own(3),
                    Standing::Near => 4,
                    Standing::Inside => 6,
                }
            }
        };
        counts[place] += 1;
        four[place] += i32::from(has_four);
    }
    assert!(counts.into_iter().all(|count| count > 20), "{counts:?}");
    assert!(four.into_iter().all(|count| count > 2), "with four clocks {four:?}, of all {counts:?}");
}
