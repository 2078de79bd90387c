//! `planner replay`.

use super::sheet;
use crate::input::{self, shown};
use crate::run::read::{priced, Wrong};
use crate::stop::{Answer, Stop};
use crate::text::told::told;
use crate::words::Words;

pub fn replay(words: &Words) -> Result<Answer, Stop> {
    let path = &words.files[1];
    let source = match sheet(&words.files[0])? {
        Ok(source) => source,
        Err(answer) => return Ok(answer),
    };
    let (name, run) = (shown(path), input::text(path)?);
    match priced(&source.sheet, &run) {
        Ok(found) => Ok(Answer::done(format!("{found}\n"))),
        Err(Wrong::Run(mistake)) => Ok(Answer::refused(told(&name, &run, &[mistake]) + "\n")),
        Err(Wrong::Text(mistake)) => Err(Stop::Mistakes(told(&name, &run, &[mistake]))),
    }
}
