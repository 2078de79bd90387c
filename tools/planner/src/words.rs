//! The words of a command: files, options and their values.

use crate::input::shown;
use crate::output::led_to;
use crate::stop::Stop;
use crate::usage::Command;
use std::ffi::{OsStr, OsString};
use std::os::unix::ffi::OsStrExt;
use std::os::unix::fs::MetadataExt;

#[derive(Debug, Default, PartialEq, Eq)]
pub struct Words {
    pub files: Vec<OsString>,
    options: Vec<(&'static str, OsString)>,
    /// `--help` stands among them.
    pub help: bool,
}

fn misused<T>(command: &Command, what: String) -> Result<T, Stop> {
    let (name, form) = (command.name, command.form);
    Err(Stop::Usage(format!("planner {name}: {what}\nusage: planner {name} {form}\nplanner {name} --help tells more")))
}

impl Words {
    pub fn of(command: &Command, words: &[OsString]) -> Result<Words, Stop> {
        let mut found = Words::default();
        let (mut rest, mut only_files) = (words.iter(), false);
        while let Some(word) = rest.next() {
            match word.as_bytes() {
                _ if only_files => found.files.push(word.clone()),
                b"--" => only_files = true,
                b"--help" | b"-h" => found.help = true,
                [b'-', _, ..] => found.option(command, word, &mut rest)?,
                _ => found.files.push(word.clone()),
            }
        }
        let (least, most) = command.files;
        if found.files.iter().filter(|file| *file == "-").count() > 1 {
            return misused(command, "standard input can be read only once".to_string());
        }
        match found.files.len() {
            _ if found.help => Ok(found),
            count if count < least => misused(command, "a file is missing".to_string()),
            count if count > most => misused(command, format!("'{}' is one file too many", shown(&found.files[most]))),
            _ => Ok(found),
        }
    }

    fn option(&mut self, command: &Command, word: &OsStr, rest: &mut std::slice::Iter<OsString>) -> Result<(), Stop> {
        let mut parts = word.as_bytes().splitn(2, |byte| *byte == b'=').map(|part| OsStr::from_bytes(part).to_os_string());
        let (name, value) = (parts.next().unwrap_or_default(), parts.next());
        let Some(form) = command.options.iter().find(|option| option.split(' ').next() == name.to_str()) else {
            return misused(command, format!("there is no option {}", shown(&name)));
        };
        let (name, wants) = form.split_once(' ').map_or((*form, None), |(name, wants)| (name, Some(wants)));
        let value = match (wants, value) {
            (None, None) => OsString::new(),
            (None, Some(_)) => return misused(command, format!("{name} takes no value")),
            (Some(_), Some(value)) => value,
            (Some(wants), None) => match rest.next() {
                Some(value) => value.clone(),
                None => return misused(command, format!("{name} needs a value, {wants}")),
            },
        };
        if self.value(name).is_some() {
            return misused(command, format!("{name} is given twice"));
        }
        self.options.push((name, value));
        Ok(())
    }

    pub fn value(&self, name: &str) -> Option<&OsStr> {
        self.options.iter().find(|(given, _)| *given == name).map(|(_, value)| value.as_os_str())
    }

    /// A whole number that an option is given.
    pub fn number(&self, command: &Command, name: &str, least: i64, most: i64) -> Result<Option<i64>, Stop> {
        let Some(value) = self.value(name) else { return Ok(None) };
        match value.to_str().and_then(|text| text.parse().ok()) {
            Some(number) if (least..=most).contains(&number) => Ok(Some(number)),
            _ => misused(command, format!("{name} takes a whole number from {least} to {most}, and not '{}'", shown(value))),
        }
    }

    /// A file to be written, which may not be one that is read.
    pub fn output(&self, command: &Command, name: &str) -> Result<Option<&OsStr>, Stop> {
        let Some(path) = self.value(name) else { return Ok(None) };
        if path.is_empty() || path == "-" {
            return misused(command, format!("{name} needs the name of a file"));
        }
        match self.files.iter().find(|file| same(read_from(file), path)) {
            Some(file) => misused(command, format!("{name} would write over {}, which is read", shown(file))),
            None => Ok(Some(path)),
        }
    }

    /// Two files to be written are not the same one.
    pub fn apart(&self, command: &Command, one: &str, other: &str) -> Result<(), Stop> {
        match (self.value(one), self.value(other)) {
            (Some(path), Some(another)) if led_to(path) == led_to(another) || same(path, another) => {
                misused(command, format!("{one} and {other} would write the same file"))
            }
            _ => Ok(()),
        }
    }
}

fn read_from(file: &OsStr) -> &OsStr {
    if file == "-" {
        OsStr::new("/dev/stdin")
    } else {
        file
    }
}

/// One plain file by two names.
fn same(one: &OsStr, other: &OsStr) -> bool {
    match (std::fs::metadata(one), std::fs::metadata(other)) {
        (Ok(one), Ok(other)) => one.is_file() && (one.dev(), one.ino()) == (other.dev(), other.ino()),
        _ => false,
    }
}
