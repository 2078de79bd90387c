//! The JSON of plans and batches has the form that README.md writes down: these fields with these types, and no others.

mod common;

use common::source;
use std::collections::{BTreeMap, BTreeSet};
use std::ffi::OsString;
use tool::batch::{items::Item, line::line};
use tool::input::Held;
use tool::plan::{json::json, planned_in_full, Buffers};

/// Reads a value and notes the type of each field under its path.
struct Reader<'a> {
    rest: &'a str,
    found: BTreeSet<(String, &'static str)>,
}

impl Reader<'_> {
    fn sign(&mut self, sign: char) {
        self.rest = self.rest.strip_prefix(sign).unwrap_or_else(|| panic!("expected {sign} before {}", self.rest));
    }

    /// Takes a sign if it is there.
    fn taken(&mut self, sign: char) -> bool {
        let taken = self.rest.starts_with(sign);
        self.rest = self.rest.strip_prefix(sign).unwrap_or(self.rest);
        taken
    }

    fn string(&mut self) -> String {
        self.sign('"');
        let mut text = String::new();
        loop {
            let c = self.rest.chars().next().expect("the string ends");
            self.rest = &self.rest[c.len_utf8()..];
            match c {
                '"' => return text,
                '\\' => {
                    let kind = self.rest.chars().next().expect("an escape");
                    assert!("\"\\u".contains(kind), "escape {kind}");
                    self.rest = &self.rest[if kind == 'u' { 5 } else { 1 }..];
                }
                c => {
                    assert!(c >= ' ', "a control character in a string");
                    text.push(c);
                }
            }
        }
    }

    fn number(&mut self) -> &'static str {
        let end = self.rest.find(|c: char| !"+-0123456789.eE".contains(c)).unwrap_or(self.rest.len());
        let (text, rest) = self.rest.split_at(end);
        self.rest = rest;
        text.parse::<f64>().unwrap_or_else(|error| panic!("'{text}': {error}"));
        if text.parse::<i64>().is_ok() {
            "integer"
        } else {
            "number"
        }
    }

    fn value(&mut self, path: String) {
        let kind = match self.rest.chars().next() {
            Some('{') => {
                self.object(&path);
                "object"
            }
            Some('[') => {
                self.list(&path);
                "list"
            }
            Some('"') => {
                self.string();
                "string"
            }
            Some('n') => {
                self.rest = self.rest.strip_prefix("null").expect("null");
                "null"
            }
            _ => self.number(),
        };
        self.found.insert((path, kind));
    }

    fn list(&mut self, path: &str) {
        self.sign('[');
        if self.taken(']') {
            return;
        }
        self.value(format!("{path}[]"));
        while self.taken(',') {
            self.value(format!("{path}[]"));
        }
        self.sign(']');
    }

    fn object(&mut self, path: &str) {
        self.sign('{');
        loop {
            let name = self.string();
            self.sign(':');
            self.value(if path.is_empty() { name } else { format!("{path}.{name}") });
            if !self.taken(',') {
                return self.sign('}');
            }
        }
    }
}

fn fields(json: &str) -> BTreeSet<(String, &'static str)> {
    let mut reader = Reader { rest: json, found: BTreeSet::new() };
    reader.value(String::new());
    assert_eq!(reader.rest, "", "something behind the object");
    reader.found.remove(&(String::new(), "object"));
    reader.found
}

/// The table of README.md: field to types. The cycle of a schedule, a loop and a run that breaks off have the fields of its stem.
fn written() -> BTreeMap<String, Vec<String>> {
    let text = include_str!("../README.md");
    let section = text.split("## JSON").nth(1).and_then(|rest| rest.split("\n## ").next()).expect("a section");
    let mut rows = BTreeMap::new();
    for row in section.lines().filter(|line| line.starts_with("| `")) {
        let cells: Vec<&str> = row.split('|').map(str::trim).collect();
        rows.insert(cells[1].trim_matches('`').to_string(), cells[2].split(" or ").map(str::to_string).collect());
    }
    let copied = |from: &str, to: &str, rows: &BTreeMap<String, Vec<String>>| -> Vec<(String, Vec<String>)> {
        let below = |field: &String| field.strip_prefix(from).map(|rest| format!("{to}{rest}"));
        rows.iter().filter_map(|(field, types)| Some((below(field)?, types.clone()))).collect()
    };
    rows.extend(copied("schedule.stem.", "schedule.cycle.", &rows));
    for part in ["nths", "stem", "cycle"] {
        rows.extend(copied(&format!("schedule.{part}"), &format!("loop.{part}"), &rows));
    }
    for (field, types) in copied("schedule.stem.", "undercut.run.", &rows) {
        rows.entry(field).or_insert(types);
    }
    rows
}

fn sheet_file(name: &str) -> Item {
    Item::File(OsString::from(format!("{}/../../sheets/{name}", env!("CARGO_MANIFEST_DIR"))))
}

/// Lines of every answer and of every kind of schedule.
fn lines() -> Vec<String> {
    let mut buffers = Buffers::default();
    let mut found = Vec::new();
    let sheets = ["bench.txt", "beacon.txt", "production.txt", "never-back.txt", "crowded.txt", "one-way.txt", "feed-in.txt"];
    for (name, finer) in
        sheets.map(|name| (name, None)).into_iter().chain([("beacon.txt", Some(10)), ("beacon.txt", Some(1)), ("never-back.txt", Some(9))])
    {
        let held = Held::Sheet(source(name));
        found.push(json(&held, &planned_in_full(&mut buffers, &held, finer).expect("no difference")));
    }
    let items = [
        sheet_file("wrong/unknown-word.txt"),
        sheet_file("wrong/unknown-word-in-edge.txt"),
        Item::File(OsString::from("none\u{1b}\".txt")),
        Item::Line(7, b"01zz".to_vec()),
        Item::Line(8, b"0101".to_vec()),
    ];
    found.extend(items.map(|item| line(&mut buffers, item).json));
    found
}

#[test]
fn the_fields_are_those_of_the_table() {
    let (wanted, mut left) = (written(), written());
    for json in lines() {
        assert!(!json.contains('\n'), "more than a line: {json}");
        for (field, kind) in fields(&json) {
            let types = wanted.get(&field).unwrap_or_else(|| panic!("{field} is not in the table"));
            assert!(types.iter().any(|known| known == kind), "{field} is {kind}, and the table says {types:?}");
            left.get_mut(&field).expect("as above").retain(|known| known != kind);
        }
    }
    left.retain(|_, types| !types.is_empty());
    assert!(left.is_empty(), "in the table and never printed: {left:?}");
}

/// The "in" column has `plan --json` where a batch leaves a field out.
#[test]
fn a_batch_has_no_run_that_breaks_off() {
    let of_run = |json: &str| -> Vec<String> {
        let paths = fields(json).into_iter().map(|(field, _)| field);
        paths.filter(|field| field.starts_with("undercut")).collect()
    };
    let figure = ["undercut", "undercut.about", "undercut.p", "undercut.q"];
    assert_eq!(of_run(&line(&mut Buffers::default(), sheet_file("production.txt")).json), figure);
    let held = Held::Sheet(source("production.txt"));
    let found = of_run(&json(&held, &planned_in_full(&mut Buffers::default(), &held, None).expect("no difference")));
    let more: Vec<_> = found.iter().filter(|field| !figure.contains(&field.as_str())).collect();
    assert!(!more.is_empty() && more.iter().all(|field| field.starts_with("undercut.run")), "{more:?}");
    let told = include_str!("../README.md").lines().filter(|line| line.contains("planned, by `plan --json`"));
    let told: Vec<&str> = told.filter_map(|line| line.split('`').nth(1)).collect();
    assert!(!told.is_empty() && told.iter().all(|field| more.iter().any(|other| other == field)), "{told:?}");
}
