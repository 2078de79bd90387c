//! A strict reader of the SVG files: tags balance, attributes are quoted, nothing is raw.

/// The attributes of a tag, each with its value between double quotes.
fn attributes(mut rest: &str) -> Vec<(String, String)> {
    let mut found = Vec::new();
    while !rest.trim().is_empty() {
        let (name, behind) = rest.trim_start().split_once("=\"").expect("an attribute has a value between quotes");
        assert!(name.chars().all(|sign| sign.is_ascii_alphanumeric() || "-:".contains(sign)), "{name}");
        let (value, behind) = behind.split_once('"').expect("the quotes are closed");
        assert!(behind.is_empty() || behind.starts_with([' ', '/', '?']), "{behind}");
        found.push((name.to_string(), value.to_string()));
        rest = behind;
    }
    let mut names: Vec<_> = found.iter().map(|(name, _)| name).collect();
    names.sort();
    names.dedup();
    assert_eq!(names.len(), found.len(), "no attribute stands twice");
    found
}

/// That each & begins one of the four entities, and nothing else is raw.
fn escaped(text: &str) {
    assert!(!text.contains('<'), "{text}");
    assert!(text.chars().all(|sign| sign == '\n' || sign >= ' '), "{text}");
    for part in text.split('&').skip(1) {
        assert!(["amp;", "lt;", "gt;", "quot;"].iter().any(|entity| part.starts_with(entity)), "{part}");
    }
}

pub type Tag = (String, Vec<(String, String)>);

/// The tags of a well-formed file that open, in their order. Panics where the file is not well formed.
pub fn tags(file: &str) -> Vec<Tag> {
    let rest = file.strip_prefix("<?xml version=\"1.0\" encoding=\"UTF-8\"?>\n").expect("the declaration comes first");
    let (mut open, mut found): (Vec<String>, Vec<Tag>) = (Vec::new(), Vec::new());
    for piece in rest.split('<').skip(1) {
        let (tag, text) = piece.split_once('>').expect("a tag is closed");
        escaped(text);
        if let Some(name) = tag.strip_prefix('/') {
            assert_eq!(open.pop().as_deref(), Some(name));
        } else {
            let inner = tag.strip_suffix('/').unwrap_or(tag);
            let (name, rest) = inner.split_once(' ').unwrap_or((inner, ""));
            let list = attributes(rest);
            list.iter().for_each(|(_, value)| escaped(value));
            assert!(found.is_empty() || !open.is_empty(), "one element holds all");
            found.push((name.to_string(), list));
            if !tag.ends_with('/') {
                open.push(name.to_string());
            }
        }
        assert!(!open.is_empty() || text.trim().is_empty());
    }
    assert!(open.is_empty(), "{open:?}");
    found
}

pub fn value<'a>(tag: &'a Tag, name: &str) -> Option<&'a str> {
    tag.1.iter().find(|(found, _)| found == name).map(|(_, value)| value.as_str())
}

pub fn number(text: &str) -> f64 {
    let number: f64 = text.parse().unwrap();
    assert!(number.is_finite());
    number
}

/// Places of a tag from left to right, and from top to bottom.
pub fn places(tag: &Tag) -> (Vec<f64>, Vec<f64>) {
    let of = |names: [&str; 4]| names.iter().filter_map(|name| value(tag, name)).map(number).collect::<Vec<_>>();
    let (mut across, mut down) = (of(["x", "x1", "x2", "cx"]), of(["y", "y1", "y2", "cy"]));
    if tag.0 == "rect" {
        across.push(across[0] + number(value(tag, "width").unwrap()));
        down.push(down[0] + number(value(tag, "height").unwrap()));
    }
    for point in value(tag, "points").unwrap_or("").split(' ').filter(|point| !point.is_empty()) {
        let (x, y) = point.split_once(',').unwrap();
        across.push(number(x));
        down.push(number(y));
    }
    (across, down)
}

pub fn size(tags: &[Tag]) -> (f64, f64) {
    assert_eq!(tags[0].0, "svg");
    let view: Vec<f64> = value(&tags[0], "viewBox").unwrap().split(' ').map(number).collect();
    assert_eq!(view[..2], [0.0, 0.0]);
    (view[2], view[3])
}
