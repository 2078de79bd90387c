//! What a batch is given: files, folders, and sheets in hexadecimal on standard input.

use crate::input::{shown, LONGEST_INPUT};
use std::collections::VecDeque;
use std::ffi::OsString;
use std::io::{BufRead, Read};
use std::path::PathBuf;

#[derive(Debug, PartialEq, Eq)]
pub enum Item {
    File(OsString),
    /// A line of standard input, by its number.
    Line(usize, Vec<u8>),
    /// Something that cannot be read, and why.
    Unread(String, String),
}

enum Source {
    Item(Item),
    /// Standard input, with the number of lines read.
    Input(usize),
}

/// The items in their order; lines of standard input are read as they are needed.
pub struct Items(VecDeque<Source>);

/// The `.txt` and `.sheet` files of a folder, by name; the folders in it are passed over.
fn in_folder(folder: &OsString) -> std::io::Result<Vec<Item>> {
    let paths: Result<Vec<PathBuf>, _> = std::fs::read_dir(folder)?.map(|entry| entry.map(|found| found.path())).collect();
    let sheet = |path: &PathBuf| path.extension().is_some_and(|end| end == "txt" || end == "sheet") && !path.is_dir();
    let mut paths: Vec<PathBuf> = paths?.into_iter().filter(sheet).collect();
    paths.sort();
    Ok(paths.into_iter().map(in_its_place).collect())
}

/// A pipe in a folder might have no end.
fn in_its_place(path: PathBuf) -> Item {
    let odd = path.metadata().is_ok_and(|found| !found.is_file());
    let path = path.into_os_string();
    if odd {
        Item::Unread(shown(&path), "is no plain file".to_string())
    } else {
        Item::File(path)
    }
}

/// Goes on to the end of a line that is too long.
fn pass_over(stream: &mut impl BufRead) -> std::io::Result<()> {
    loop {
        let (passed, ended) = match stream.fill_buf()? {
            [] => return Ok(()),
            part => part.iter().position(|byte| *byte == b'\n').map_or((part.len(), false), |end| (end + 1, true)),
        };
        stream.consume(passed);
        if ended {
            return Ok(());
        }
    }
}

/// The next line of standard input that holds something, and whether more may come; `None` at its end.
fn line(number: &mut usize) -> Option<(Item, bool)> {
    let mut stream = std::io::stdin().lock();
    loop {
        let mut line = Vec::new();
        *number += 1;
        let unread = |why: String| Item::Unread(format!("standard input:{number}"), why);
        let failed = |error| Some((unread(format!("cannot be read: {error}")), false));
        match stream.by_ref().take(LONGEST_INPUT + 1).read_until(b'\n', &mut line) {
            Ok(0) => return None,
            Ok(_) if line.len() as u64 > LONGEST_INPUT => {
                let passed = if line.ends_with(b"\n") { Ok(()) } else { pass_over(&mut stream) };
                return passed.map_or_else(failed, |()| Some((unread("is longer than 1 MB".to_string()), true)));
            }
            Ok(_) if line.iter().all(u8::is_ascii_whitespace) => {}
            Ok(_) => return Some((Item::Line(*number, line), true)),
            Err(error) => return failed(error),
        }
    }
}

impl Items {
    pub fn of(operands: &[OsString]) -> Items {
        let mut given = VecDeque::new();
        for operand in operands {
            if operand == "-" {
                given.push_back(Source::Input(0));
            } else if !std::path::Path::new(operand).is_dir() {
                given.push_back(Source::Item(Item::File(operand.clone())));
            } else {
                let unread = |error| vec![Item::Unread(shown(operand), format!("cannot be read: {error}"))];
                given.extend(in_folder(operand).unwrap_or_else(unread).into_iter().map(Source::Item));
            }
        }
        Items(given)
    }

    /// How many there are, where that is known before.
    pub fn total(&self) -> Option<usize> {
        self.0.iter().all(|given| matches!(given, Source::Item(_))).then_some(self.0.len())
    }
}

impl Iterator for Items {
    type Item = Item;

    fn next(&mut self) -> Option<Item> {
        while let Some(given) = self.0.pop_front() {
            match given {
                Source::Item(item) => return Some(item),
                Source::Input(mut number) => {
                    if let Some((item, more)) = line(&mut number) {
                        if more {
                            self.0.push_front(Source::Input(number));
                        }
                        return Some(item);
                    }
                }
            }
        }
        None
    }
}
