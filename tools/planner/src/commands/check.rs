//! `planner check`.

use super::{file, sheet};
use crate::stop::{Answer, Stop};
use crate::words::Words;

fn count_words(number: usize, what: &str) -> String {
    format!("{number} {what}{}", if number == 1 { "" } else { "s" })
}

pub fn check(words: &Words) -> Result<Answer, Stop> {
    let source = match sheet(file(words))? {
        Ok(source) => source,
        Err(answer) => return Ok(answer),
    };
    if let Err(refusal) = planner::check(&source.bytes) {
        return Err(Stop::Difference(format!("the library answers {refusal}, and the tool reads the sheet")));
    }
    let sheet = &source.sheet;
    let counts = [(sheet.locations.len(), "location"), (sheet.clocks.len(), "clock"), (sheet.edges.len(), "edge")];
    let counts = counts.map(|(number, what)| count_words(number, what)).join(", ");
    let (bytes, edition) = (count_words(source.bytes.len(), "byte"), sheet.edition.number());
    Ok(Answer::done(format!("{}: in order: {counts}; {bytes} of edition {edition}\n", source.name)))
}
