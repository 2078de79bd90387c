//! How far a run that breaks off undercuts the ratio: as far as the smallest potential allows, by a run in whole units.

use super::corner::visits;
use super::lasso::stepped;
use super::tight::least_walk;
use super::NoRun;
use crate::certificate::Certificate;
use crate::nodes::is_point;
use crate::run::{passed, Member};
use crate::schedule::{Shown, Sum};
use crate::sheet::Sheet;
use crate::stop::Stop;

/// Whether a run in whole units undercuts so far.
#[derive(Debug, PartialEq, Eq)]
pub enum Undercut {
    /// It was not searched for.
    Unsought,
    /// None does.
    Unattained,
    /// This one does, by replay; the empty one where the smallest potential is 0.
    Attained(BrokenOff),
}

/// A run in whole units from the start, and what it takes, costs and earns.
#[derive(Debug, PartialEq, Eq)]
pub struct BrokenOff {
    pub rows: Vec<Shown>,
    pub sum: Sum,
}

/// Runs in whole units are walks that take edges, and end, at points. Where nothing is strict one has the smallest potential, by a theorem.
pub fn undercut(sheet: &Sheet, certificate: &Certificate) -> Result<Undercut, Stop> {
    if let Some(codes) = least_walk(sheet, certificate, is_point)? {
        return Ok(Undercut::Attained(replayed(sheet, certificate, &codes)?));
    }
    let least = certificate.smallest_potential();
    let differs = |what: &str| Err(Stop::Difference(format!("no {what} comes to the smallest potential {least}")));
    match (sheet.is_closed(), least_walk(sheet, certificate, |_| true)?) {
        (true, _) => differs("run in whole units"),
        (false, None) => differs("walk"),
        (false, Some(_)) => Ok(Undercut::Unattained),
    }
}

/// The walk read as a run, which has to be allowed and to weigh as much as the smallest potential.
fn replayed(sheet: &Sheet, certificate: &Certificate, codes: &[u16]) -> Result<BrokenOff, Stop> {
    let differs = |what: String| Stop::Difference(format!("the run that breaks off {what}"));
    let members = members(codes, &certificate.sheet)?;
    let passed = passed(sheet, 1, &members).map_err(|wrong| {
        let NoRun { row, what } = NoRun::from(wrong);
        differs(format!("is none in row {row}: {what}"))
    })?;
    let (sum, least) = (passed[members.len()], certificate.smallest_potential());
    if certificate.weight(sum.cost, sum.reward) != i128::from(least) {
        return Err(differs(format!("{}, and the smallest potential is {least}", sum.words(1))));
    }
    Ok(BrokenOff { rows: rows(sheet, &members, &passed), sum })
}

/// A wait and an edge by turns, and a last wait where there is one.
fn members(codes: &[u16], bytes: &[u8]) -> Result<Vec<Member>, Stop> {
    let (visits, _, rest) = visits(codes, &stepped(bytes, 0, codes)?);
    let mut members: Vec<Member> = visits.iter().flat_map(|visit| [Member::Delay(visit.wait), Member::Edge(visit.edge)]).collect();
    if rest > 0 {
        members.push(Member::Delay(rest));
    }
    Ok(members)
}

fn rows(sheet: &Sheet, members: &[Member], passed: &[Sum]) -> Vec<Shown> {
    let mut location = 0;
    let row = |(i, pair): (usize, &[Member])| {
        let (before, after) = (passed[2 * i], passed[2 * i + pair.len()]);
        let Sum { time: wait, cost, reward } = after - before;
        let edge = pair.iter().find_map(|member| if let Member::Edge(edge) = member { Some(*edge) } else { None });
        let row = Shown { at: before.time, wait, location, edge, cost, reward };
        location = edge.map_or(location, |edge| sheet.edges[edge].target);
        row
    };
    members.chunks(2).enumerate().map(row).collect()
}

#[cfg(test)]
mod tests {
    use super::*;
    use crate::sheet::encode::encode;
    use crate::text::parse;

    /// The ratio is 7/4: a round is paid 3 at `take`, waits 2 in b, which earns 2, and pays 10 at `give` for 2 more.
    const CLOSED: &str = "clocks x\nlocation a\n  x <= 2\nlocation b\n  reward 1\n  x <= 2\nedge take: a -> b\n  cost -3\n\
        edge give: b -> a\n  when x >= 1\n  reset x\n  cost 10\n  reward 2\n";

    fn planned(text: &str) -> (Sheet, Certificate) {
        let sheet = parse(text).expect("a sheet");
        let bytes = encode(&sheet);
        let certificate = Certificate::of(&bytes, &planner::Planner::new().plan(&bytes).expect("a plan"));
        (sheet, certificate)
    }

    fn found(text: &str) -> (i64, i64, Undercut) {
        let (sheet, certificate) = planned(text);
        let found = undercut(&sheet, &certificate).expect("no difference");
        (certificate.smallest_potential(), certificate.q, found)
    }

    fn row(at: i64, wait: i64, location: usize, edge: Option<usize>, cost: i64, reward: i64) -> Shown {
        Shown { at, wait, location, edge, cost, reward }
    }

    #[test]
    fn a_last_wait_has_no_edge_behind_it() {
        let rows = vec![row(0, 0, 0, Some(0), -3, 0), row(0, 2, 1, None, 0, 2)];
        let run = BrokenOff { rows, sum: Sum { time: 2, cost: -3, reward: 2 } };
        assert_eq!(found(CLOSED), (-26, 4, Undercut::Attained(run)));
    }

    #[test]
    fn where_nothing_undercuts_the_run_is_empty() {
        let bench = "clocks x\nlocation a\n  cost 1\n  x <= 2\nedge e: a -> a\n  when x >= 1\n  reset x\n  cost 5\n  reward 2\n";
        let empty = BrokenOff { rows: vec![], sum: Sum::default() };
        assert_eq!(found(bench), (0, 1, Undercut::Attained(empty)));
    }

    /// The nearest walk takes the edge at the corner point 1, where it is not allowed.
    #[test]
    fn a_run_that_keeps_a_strict_guard_is_found() {
        let late = CLOSED.replace("  reward 1\n", "").replace("a -> b\n", "a -> b\n  when x > 1\n").replace("  when x >= 1\n", "");
        let run = |wait| BrokenOff { rows: vec![row(0, wait, 0, Some(0), -3, 0)], sum: Sum { time: wait, cost: -3, reward: 0 } };
        assert_eq!(found(&late), (-6, 2, Undercut::Attained(run(2))));
        assert_eq!(found(&late.replace("x > 1", "x >= 1")), (-6, 2, Undercut::Attained(run(1))));
        assert_eq!(found(&late.replace("x > 1", "x > 1, x < 2")), (-6, 2, Undercut::Unattained));
    }

    #[test]
    fn a_strict_bound_may_keep_runs_from_it() {
        assert_eq!(found(&CLOSED.replace("reward 1\n  x <= 2", "reward 1\n  x < 2")), (-26, 4, Undercut::Unattained));
    }

    fn told(text: &str, alter: impl Fn(&mut Sheet, &mut Certificate)) -> String {
        let (mut sheet, mut certificate) = planned(text);
        alter(&mut sheet, &mut certificate);
        match undercut(&sheet, &certificate) {
            Err(Stop::Difference(what)) => what,
            other => panic!("{other:?}"),
        }
    }

    fn lower_smallest(certificate: &mut Certificate) {
        let least = certificate.smallest_potential();
        certificate.potentials.iter_mut().filter(|potential| **potential == least).for_each(|potential| *potential -= 1);
    }

    #[test]
    fn what_lies_is_a_difference() {
        let strict = CLOSED.replace("x >= 1", "x > 1");
        assert_eq!(told(CLOSED, |_, c| lower_smallest(c)), "no run in whole units comes to the smallest potential -27");
        assert_eq!(told(&strict, |_, c| lower_smallest(c)), "no walk comes to the smallest potential -27");
        assert_eq!(
            told(CLOSED, |_, c| c.potentials.iter_mut().for_each(|potential| *potential -= 1)),
            "the run that breaks off takes 2, costs -3, earns 2, and the smallest potential is -27"
        );
        assert_eq!(
            told(CLOSED, |sheet, _| sheet.locations[1].upper[0] = Some(4)),
            "the run that breaks off is none in row 2: after the delay x = 2; expected x < 2 in location 'b'"
        );
        assert!(told(CLOSED, |_, c| c.nodes[1] += 1).ends_with("is reached, and is not among the nodes of the plan"));
    }
}
