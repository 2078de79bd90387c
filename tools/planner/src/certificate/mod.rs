//! Certificates: a text with the sheet and everything that shows its ratio to be the least.

mod lasso;
mod listed;
mod potentials;
pub mod read;
mod reading;
pub mod verify;

use crate::sheet::hex::to_hex;
use reading::{edition, place};
use std::fmt::Write;

#[derive(Clone, Debug, PartialEq, Eq)]
pub struct Certificate {
    pub sheet: Vec<u8>,
    pub p: i64,
    pub q: i64,
    pub nodes: Vec<u64>,
    pub potentials: Vec<i64>,
    pub stem: Vec<u16>,
    pub cycle: Vec<u16>,
}

const HEAD: &str = "\
# That 'ratio P Q' is the least: P / Q is the least cost over reward of all cycles of the sheet that earn.
# sheet: its bytes. nodes: the number of each node, and its potential.
# stem, cycle: the codes of the steps of a walk from the start, and of a cycle at its end that has the ratio.
# Codes 0 to 31 take the edge of that number, 32 waits for a unit, 33 moves on to the next region.
";

/// Bytes of the sheet on a line, and codes.
const BYTES: usize = 32;
const CODES: usize = 24;

impl Certificate {
    pub fn of(sheet: &[u8], plan: &planner::Plan) -> Certificate {
        Certificate {
            sheet: sheet.to_vec(),
            p: plan.p,
            q: plan.q,
            nodes: plan.nodes.to_vec(),
            potentials: plan.potentials.to_vec(),
            stem: plan.stem.to_vec(),
            cycle: plan.cycle.to_vec(),
        }
    }

    /// The weight of a step, a walk or a run: q times its cost minus p times its reward.
    pub fn weight(&self, cost: i64, reward: i64) -> i128 {
        i128::from(self.q) * i128::from(cost) - i128::from(self.p) * i128::from(reward)
    }

    /// The smallest of the potentials: 0 or less, since the start's is 0.
    pub fn smallest_potential(&self) -> i64 {
        self.potentials.iter().copied().min().unwrap_or(0)
    }
}

fn sheet_text(sheet: &[u8]) -> String {
    let mut text = format!("sheet {}\n", sheet.len());
    for line in sheet.chunks(BYTES) {
        let _ = writeln!(text, "  {}", to_hex(line));
    }
    text
}

fn or_none(number: Option<impl ToString>) -> String {
    number.map_or("?".to_string(), |number| number.to_string())
}

/// A number or a potential that is missing is written as '?', which is not read back.
fn nodes_text(certificate: &Certificate) -> String {
    let Certificate { sheet, nodes, potentials, .. } = certificate;
    let count = nodes.len().max(potentials.len());
    let mut text = format!("nodes {count}\n");
    for i in 0..count {
        let said = nodes.get(i).map_or(String::new(), |node| format!("  # {}", place(sheet, *node)));
        let _ = writeln!(text, "  {} {}{said}", or_none(nodes.get(i)), or_none(potentials.get(i)));
    }
    text
}

fn codes_text(keyword: &str, codes: &[u16]) -> String {
    let mut text = format!("{keyword} {}\n", codes.len());
    for line in codes.chunks(CODES) {
        let words: Vec<_> = line.iter().map(|code| code.to_string()).collect();
        let _ = writeln!(text, "  {}", words.join(" "));
    }
    text
}

/// The certificate's text. Its version is the edition of the sheet, which fixes how node numbers are laid out.
pub fn written(certificate: &Certificate) -> String {
    let Certificate { sheet, p, q, stem, cycle, .. } = certificate;
    let mut text = format!("planner certificate {}\n{HEAD}", edition(sheet).unwrap_or_default().number());
    text += &sheet_text(sheet);
    text += &format!("ratio {p} {q}\n");
    text += &nodes_text(certificate);
    text += &codes_text("stem", stem);
    text += &codes_text("cycle", cycle);
    text
}
