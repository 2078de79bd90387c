//! A sheet and its twin: the same sheet in the other edition, which plans alike.

use crate::coverage::tally::Tally;
use crate::judges::plan::Answer;
use crate::judges::verdict::{same, Verdict};
use crate::library::answers::Planner;
use crate::reading::edition::Edition;
use crate::reading::expected::Expected;
use crate::reading::region::node_of;
use crate::reading::sheet::Sheet;
use crate::reading::write::write;

fn kind(edition: Edition, refusal: u8) -> String {
    format!("sheets of edition {} and their twins, plans answer: {refusal:>2}", edition.byte())
}

/// The sheet in the other edition, if that allows as many clocks.
fn twin_of(sheet: &Sheet) -> Option<Sheet> {
    let edition = sheet.edition.other();
    (sheet.clocks <= edition.most_clocks()).then(|| Sheet { edition, ..sheet.clone() })
}

/// The numbers of a sheet's nodes in its twin.
fn twin_numbers(sheet: &Sheet, twin: &Sheet, numbers: &[u64]) -> Vec<u64> {
    let nodes = numbers.iter().map(|&number| node_of(sheet, number).expect("a judged node"));
    nodes.map(|node| node.number(twin.edition)).collect()
}

/// Judges the twin of a sheet that passes questions 2 to 10, if it has one. The sheet's own plan is
/// judged, and `answer` is what it answered where it was accepted.
pub fn judge_twin(
    planner: &Planner,
    sheet: &Sheet,
    expected: &Expected,
    answer: Option<&Answer>,
    tally: &mut Tally,
) -> Verdict<()> {
    let twin = match twin_of(sheet) {
        None => return Ok(()),
        Some(twin) => twin,
    };
    let bytes = write(&twin).bytes;
    let check = if expected.sheet.is_some() { 0 } else { expected.refusal };
    same("twin: check", planner.check(&bytes), check)?;
    let answered = planner.answer(&bytes);
    same("twin: refusal of the plan", answered.refusal, expected.refusal)?;
    if let Some(answer) = answer {
        let (p, q) = (answered.numbers.p, answered.numbers.q);
        same("twin: ratio", (p, q), (answer.p, answer.q))?;
        same("twin: node count", answered.nodes.len(), answer.nodes.len())?;
        let numbers = twin_numbers(sheet, &twin, &answer.nodes);
        for (at, number) in numbers.into_iter().enumerate() {
            same(&format!("twin: node list, entry {at}"), answered.nodes[at], number)?;
            let what = format!("twin: potential of node {number}");
            same(&what, answered.potentials[at], answer.potentials[at])?;
        }
    }
    tally.count(kind(sheet.edition, expected.refusal));
    Ok(())
}

/// Each kind and the least number of its cases.
pub fn promised() -> Vec<(String, u64)> {
    let answers = [(0, 500), (11, 4), (12, 50), (13, 150), (14, 20), (17, 50)];
    let editions = [Edition::First, Edition::Second].into_iter();
    editions.flat_map(|edition| answers.map(|(plan, least)| (kind(edition, plan), least))).collect()
}
