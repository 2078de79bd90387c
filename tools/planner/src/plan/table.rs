//! Rows as tables.

use crate::fraction::fraction;
use crate::schedule::Shown;
use crate::sheet::Sheet;

type Cells = [String; 6];

const HEADS: [&str; 6] = ["at", "wait", "in", "then", "cost", "reward"];

/// Numbers stand at the right of their column, names at the left.
const NUMBERS: [bool; 6] = [true, true, false, false, true, true];

/// Where no edge is taken there is a dash.
fn cells(sheet: &Sheet, nths: i64, row: &Shown) -> Cells {
    let units = |count: i64| fraction(count.into(), nths.into());
    let location = sheet.locations[row.location].name.clone();
    let edge = row.edge.map_or("-".to_string(), |edge| sheet.edges[edge].name.clone());
    [units(row.at), units(row.wait), location, edge, units(row.cost), units(row.reward)]
}

fn line(cells: &Cells, widths: &[usize; 6]) -> String {
    let mut text = String::new();
    for ((cell, width), number) in cells.iter().zip(widths).zip(NUMBERS) {
        text += &if number { format!("  {cell:>width$}") } else { format!("  {cell:<width$}") };
    }
    text.trim_end().to_string() + "\n"
}

/// A table for each part, with how many nths make a unit there: a head, and a line for each row. All have the same columns.
pub fn tables<const N: usize>(sheet: &Sheet, parts: [(i64, Vec<Shown>); N]) -> [String; N] {
    let parts = parts.map(|(nths, rows)| -> Vec<Cells> { rows.iter().map(|row| cells(sheet, nths, row)).collect() });
    let mut widths = HEADS.map(str::len);
    for cells in parts.iter().flatten() {
        for (width, cell) in widths.iter_mut().zip(cells) {
            *width = cell.len().max(*width);
        }
    }
    let head = line(&HEADS.map(str::to_string), &widths);
    parts.map(|rows| rows.iter().fold(head.clone(), |table, cells| table + &line(cells, &widths)))
}
