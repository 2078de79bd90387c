//! How many cases fell into each kind, and whether each promised kind had enough.
//!
//! A kind is named `GROUP: ITEM`; a group is printed as one paragraph.

use std::collections::BTreeMap;

#[derive(Default)]
pub struct Tally {
    counts: BTreeMap<String, u64>,
}

const WIDTH: usize = 100;

fn print_group(group: &str, items: &[String]) {
    let mut line = format!("  {group}:");
    for (place, item) in items.iter().enumerate() {
        let mark = if place + 1 < items.len() { "," } else { "" };
        if line.len() + item.len() + mark.len() >= WIDTH {
            println!("{line}");
            line = "   ".to_string();
        }
        line.push_str(&format!(" {item}{mark}"));
    }
    println!("{line}");
}

impl Tally {
    pub fn count(&mut self, kind: impl Into<String>) {
        self.add(kind, 1);
    }

    pub fn add(&mut self, kind: impl Into<String>, more: u64) {
        *self.counts.entry(kind.into()).or_insert(0) += more;
    }

    pub fn print(&self, title: &str) {
        println!("{title}");
        let mut groups: BTreeMap<&str, Vec<String>> = BTreeMap::new();
        for (kind, count) in &self.counts {
            let (group, item) = kind.split_once(": ").unwrap_or((kind, ""));
            groups.entry(group).or_default().push(format!("{} ({count})", item.trim_start()));
        }
        for (group, items) in &groups {
            print_group(group, items);
        }
    }

    /// An error names every promised kind that had too few cases.
    pub fn keeps<K: AsRef<str>>(&self, promised: &[(K, u64)]) -> Result<(), String> {
        let few = promised.iter().filter_map(|(kind, least)| {
            let kind = kind.as_ref();
            let count = self.counts.get(kind).copied().unwrap_or(0);
            (count < *least).then(|| format!("{kind}: {count} cases, promised {least}"))
        });
        let few: Vec<String> = few.collect();
        if few.is_empty() {
            return Ok(());
        }
        Err(format!("too few cases of a kind\n  {}", few.join("\n  ")))
    }
}
