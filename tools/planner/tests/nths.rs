//! Runs in nths along the regions of a lasso: that they are there where they can be, and what they are.

mod common;

use common::{source, Dice};
use tool::nodes::node;
use tool::plan::corner::{corners, Corners};
use tool::plan::nths::{inside, least};
use tool::run::{of_schedule, replay, Loop};
use tool::schedule::Schedule;
use tool::sheet::edition::Edition;
use tool::sheet::{encode::encode, Sheet};

/// The lasso of a sheet that has a plan, with its ratio.
fn lasso(sheet: &Sheet) -> Option<(Corners, i128, i128)> {
    let bytes = encode(sheet);
    let mut planner = planner::Planner::new();
    let plan = planner.plan(&bytes).ok()?;
    let found = corners(sheet, &bytes, plan.stem, plan.cycle).expect("the lasso is stepped");
    Some((found, plan.p.into(), plan.q.into()))
}

fn replayed(sheet: &Sheet, schedule: &Schedule) -> Loop {
    replay(sheet, &of_schedule(schedule)).expect("a run").around
}

/// Whole part and rank of the fraction of each clock in nths.
fn region(clocks: &[i64], n: i64) -> (Vec<i64>, Vec<u8>) {
    let mut fractions: Vec<i64> = clocks.iter().map(|clock| clock % n).filter(|fraction| *fraction > 0).collect();
    fractions.sort();
    fractions.dedup();
    let rank = |clock: &i64| fractions.iter().position(|fraction| *fraction == clock % n).map_or(0, |place| place as u8 + 1);
    (clocks.iter().map(|clock| clock / n).collect(), clocks.iter().map(rank).collect())
}

fn assert_along(edition: Edition, schedule: &Schedule, corners: &Corners) {
    for (row, number) in schedule.rows().zip(&corners.nodes) {
        let clocks: Vec<i64> = row.clocks.iter().map(|clock| clock + row.wait).collect();
        let (whole, class) = region(&clocks, schedule.nths);
        let node = node(edition, *number);
        assert_eq!((whole, class), (node.whole[..clocks.len()].to_vec(), node.class[..clocks.len()].to_vec()));
    }
}

/// How much dearer than the ratio a loop is, as a fraction.
fn above(found: &Loop, p: i128, q: i128) -> f64 {
    let [cost, reward] = [found.sum.cost, found.sum.reward].map(i128::from);
    assert!(q * cost >= p * reward, "no loop is cheaper");
    (q * cost - p * reward) as f64 / (q * reward) as f64
}

#[test]
fn seeded_runs_are_in_the_regions_and_come_near() {
    let mut dice = Dice(3);
    let (mut served, mut never, mut late) = (0, 0, 0);
    for turn in 0..4000 {
        let sheet = dice.small_sheet();
        let Some((corners, p, q)) = lasso(&sheet) else { continue };
        let Some(first) = least(&sheet, &corners) else {
            never += 1;
            assert!([2, 60, 997].into_iter().all(|n| inside(&sheet, &corners, n).is_none()), "turn {turn}");
            continue;
        };
        served += 1;
        late += usize::from(first > 2);
        assert!((1..first).all(|n| inside(&sheet, &corners, n).is_none()), "turn {turn}");
        for n in [first, 2 * first, 1000] {
            let schedule = inside(&sheet, &corners, n).unwrap_or_else(|| panic!("turn {turn}: none in {n} nths"));
            assert_along(sheet.edition, &schedule, &corners);
            let distance = above(&replayed(&sheet, &schedule), p, q);
            assert!(n < 1000 || distance < 0.2, "turn {turn}: {distance} above the ratio in thousandths");
        }
    }
    assert!(served > 500 && never > 20 && late > 50, "{served} served, {never} never, {late} late");
}

/// A wait of a unit that earns may shrink to nothing in nths; then the run would have no ratio.
const SHRINKING: &str = "clocks x
location a
  x <= 3
location b
  x <= 3
  cost 1
  reward 1
edge e1: a -> b
  when x > 0, x < 1
edge e2: b -> a
  when x > 0, x < 1
  reset x
  cost 1
";

#[test]
fn a_run_in_nths_earns() {
    let sheet = tool::text::parse(SHRINKING).expect("a sheet");
    let (corners, p, q) = lasso(&sheet).expect("a plan");
    assert_eq!((p, q, least(&sheet, &corners)), (2, 1, Some(3)));
    let found = inside(&sheet, &corners, 3).map(|schedule| replayed(&sheet, &schedule).to_string());
    assert_eq!(found, Some("cost 4/3, reward 1/3, ratio 4".to_string()));
}

#[test]
fn rings_that_earn_by_waiting_have_runs_that_earn() {
    let mut dice = Dice(5);
    let (mut served, mut early) = (0, 0);
    for turn in 0..3000 {
        let sheet = dice.ring_sheet();
        let Some((corners, p, q)) = lasso(&sheet) else { continue };
        let Some(first) = least(&sheet, &corners) else { continue };
        served += 1;
        for n in [first, first + 1, 100] {
            let schedule = inside(&sheet, &corners, n).unwrap_or_else(|| panic!("turn {turn}: none in {n} nths"));
            let found = replayed(&sheet, &schedule);
            assert!(found.sum.reward > 0, "turn {turn}: {found}");
            assert_along(sheet.edition, &schedule, &corners);
            above(&found, p, q);
        }
        early += usize::from((1..first).any(|n| inside(&sheet, &corners, n).is_some()));
    }
    assert!(served > 300 && early == 0, "{served} served, {early} before the least");
}

#[test]
fn the_beacon_in_tenths_is_the_best_there_is() {
    let sheet = source("beacon.txt").sheet;
    let (corners, ..) = lasso(&sheet).expect("a plan");
    assert_eq!(least(&sheet, &corners), Some(2));
    let schedule = inside(&sheet, &corners, 10).expect("a run in tenths");
    assert_eq!(replayed(&sheet, &schedule).to_string(), "cost 87/10, reward 4, ratio 87/40");
}

#[test]
fn what_never_comes_back_has_no_run() {
    let sheet = source("never-back.txt").sheet;
    let (corners, ..) = lasso(&sheet).expect("a plan");
    assert_eq!(least(&sheet, &corners), None);
    assert!((1..=1000).all(|n| inside(&sheet, &corners, n).is_none()));
}
