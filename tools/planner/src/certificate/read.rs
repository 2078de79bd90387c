//! From the text of a certificate to its parts.

use super::{reading::edition, Certificate};
use crate::sheet::edition::Edition;
use crate::sheet::hex::{from_hex, to_hex};
use crate::text::fault::{Fault, Place};
use crate::text::Mistake;
use std::str::FromStr;

/// The longest part of a wrong word that is told.
const TOLD: usize = 24;

fn mistake(line: usize, what: String, expected: &str) -> Mistake {
    Mistake { line, fault: Fault::new(Place::default(), what, expected) }
}

struct Reader<'a> {
    lines: std::iter::Enumerate<std::str::Lines<'a>>,
    /// The line that was read last; 1 before the first.
    line: usize,
}

/// The certificate that a text holds. Its rules are not asked here.
pub fn read(text: &str) -> Result<Certificate, Mistake> {
    let mut reader = Reader { lines: text.lines().enumerate(), line: 1 };
    let version = reader.title()?;
    let sheet = reader.entries("sheet", "bytes, each two of the digits 0 to 9 and a to f", bytes_of)?;
    same_edition(version, &sheet)?;
    let (p, q) = reader.ratio()?;
    let (nodes, potentials) = reader.nodes()?;
    let stem = reader.entries("stem", "codes, each 0 to 65535", code_of)?;
    let cycle = reader.entries("cycle", "codes, each 0 to 65535", code_of)?;
    match reader.words() {
        None => Ok(Certificate { sheet, p, q, nodes, potentials, stem, cycle }),
        Some(words) => reader.found(words.first(), "nothing after the cycle"),
    }
}

/// The version is the edition of the sheet. Of bytes that name no edition the rules tell.
fn same_edition(version: Edition, sheet: &[u8]) -> Result<(), Mistake> {
    let Some(edition) = edition(sheet).filter(|edition| *edition != version) else { return Ok(()) };
    let [version, edition] = [version, edition].map(Edition::number);
    Err(mistake(1, format!("certificate version {version} of a sheet of edition {edition}"), &format!("version {edition}")))
}

/// A number as it is written: no sign but '-', and no digit too many.
fn number<T: FromStr + ToString>(word: &str) -> Option<T> {
    word.parse().ok().filter(|number: &T| number.to_string() == word)
}

fn code_of(word: &str) -> Option<Vec<u16>> {
    number(word).map(|code| vec![code])
}

/// Digits as they are written: lower case.
fn bytes_of(word: &str) -> Option<Vec<u8>> {
    from_hex(word).ok().filter(|bytes| to_hex(bytes) == word)
}

impl<'a> Reader<'a> {
    /// The words of the next line that says something.
    fn words(&mut self) -> Option<Vec<&'a str>> {
        for (i, line) in self.lines.by_ref() {
            self.line = i + 1;
            let said = line.split('#').next().unwrap_or("");
            let words: Vec<_> = said.split_ascii_whitespace().collect();
            if !words.is_empty() {
                return Some(words);
            }
        }
        None
    }

    fn wrong<T>(&self, what: impl Into<String>, expected: &str) -> Result<T, Mistake> {
        Err(mistake(self.line, what.into(), expected))
    }

    /// The word found is not the expected one; none is found where the line or the text ends.
    fn found<T>(&self, word: Option<&&str>, expected: &str) -> Result<T, Mistake> {
        match word {
            Some(word) => {
                let told: String = word.chars().take(TOLD).flat_map(char::escape_debug).collect();
                let more = if word.chars().nth(TOLD).is_some() { "..." } else { "" };
                self.wrong(format!("found '{told}{more}'"), expected)
            }
            None => self.wrong("found the end", expected),
        }
    }

    /// The first line names the format and its version.
    fn title(&mut self) -> Result<Edition, Mistake> {
        let expected = "'planner certificate 1' on the first line, or 2 for a sheet of edition 2";
        let words = self.words().unwrap_or_default();
        let ["planner", "certificate", version] = words[..] else {
            return Err(mistake(1, "this is no certificate".to_string(), expected));
        };
        if self.line > 1 {
            return self.wrong("the format is named late", expected);
        }
        match number::<u32>(version).map(|version| (version, u8::try_from(version).ok().and_then(Edition::of))) {
            Some((_, Some(edition))) => Ok(edition),
            Some((other, None)) => self.wrong(format!("certificate version {other}"), "version 1 or 2"),
            None => self.found(Some(&version), "version 1 or 2"),
        }
    }

    /// What follows a keyword: a given number of words, and no more.
    fn line_of<const N: usize>(&mut self, keyword: &str, form: &str) -> Result<[&'a str; N], Mistake> {
        let words = self.words().unwrap_or_default();
        match words.split_first() {
            Some((first, rest)) if *first == keyword => match <[&str; N]>::try_from(rest) {
                Ok(words) => Ok(words),
                Err(_) => self.found(rest.get(N), form),
            },
            _ => self.found(words.first(), form),
        }
    }

    /// A count may be any number: nothing is kept ready for it.
    fn count(&mut self, keyword: &str) -> Result<usize, Mistake> {
        let form = format!("a line like: {keyword} 7");
        let [word] = self.line_of(keyword, &form)?;
        match number::<u32>(word) {
            Some(count) => Ok(count as usize),
            None => self.found(Some(&word), &form),
        }
    }

    /// As many entries as are counted, on as many lines as they take.
    fn entries<T>(&mut self, keyword: &str, form: &str, of: fn(&str) -> Option<Vec<T>>) -> Result<Vec<T>, Mistake> {
        let count = self.count(keyword)?;
        let mut all = Vec::new();
        while all.len() < count {
            let expected = format!("{form}: {count} of the {keyword}, of which {} are read", all.len());
            let words = self.words().unwrap_or_default();
            if words.is_empty() {
                return self.found(None, &expected);
            }
            for word in words {
                all.extend(of(word).map_or_else(|| self.found(Some(&word), &expected), Ok)?);
            }
        }
        if all.len() > count {
            return self.wrong(format!("{} entries of the {keyword}", all.len()), &format!("{count}, as counted"));
        }
        Ok(all)
    }

    fn ratio(&mut self) -> Result<(i64, i64), Mistake> {
        let form = "a line like: ratio 3 1, with whole numbers of 64 bits";
        let words: [&str; 2] = self.line_of("ratio", form)?;
        match words.map(number) {
            [Some(p), Some(q)] => Ok((p, q)),
            [None, _] => self.found(Some(&words[0]), form),
            [_, None] => self.found(Some(&words[1]), form),
        }
    }

    fn nodes(&mut self) -> Result<(Vec<u64>, Vec<i64>), Mistake> {
        let form = format!("the number of a node, 0 to {}, and its potential, a whole number of 64 bits", u64::MAX);
        let count = self.count("nodes")?;
        let (mut nodes, mut potentials) = (Vec::new(), Vec::new());
        while nodes.len() < count {
            let (node, potential) = self.node(&format!("{form}: {count} lines, of which {} are read", nodes.len()))?;
            nodes.push(node);
            potentials.push(potential);
        }
        Ok((nodes, potentials))
    }

    fn node(&mut self, expected: &str) -> Result<(u64, i64), Mistake> {
        let words = self.words().unwrap_or_default();
        let Some(node) = words.first().and_then(|word| number(word)) else { return self.found(words.first(), expected) };
        let Some(potential) = words.get(1).and_then(|word| number(word)) else { return self.found(words.get(1), expected) };
        match words.get(2) {
            None => Ok((node, potential)),
            more => self.found(more, expected),
        }
    }
}
