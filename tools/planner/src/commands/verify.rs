//! `planner verify`.

use super::sheet;
use crate::certificate::{read::read, verify};
use crate::input::{self, shown};
use crate::stop::{Answer, Stop};
use crate::text::told::told;
use crate::words::Words;

pub fn verify(words: &Words) -> Result<Answer, Stop> {
    let path = &words.files[1];
    let source = match sheet(&words.files[0])? {
        Ok(source) => source,
        Err(answer) => return Ok(answer),
    };
    let (name, certificate) = (shown(path), input::text(path)?);
    let certificate = read(&certificate).map_err(|mistake| Stop::Mistakes(told(&name, &certificate, &[mistake])))?;
    match verify::verify(&source.bytes, &certificate) {
        Ok(()) => {
            let (p, q, nodes) = (certificate.p, certificate.q, certificate.nodes.len());
            Ok(Answer::done(format!("{name}: verified: {p}/{q} is the least ratio of {}, {nodes} nodes\n", source.name)))
        }
        Err(broken) => Ok(Answer::refused(format!("{name}: refused: {}: {}\n", broken.rule, broken.what))),
    }
}
