//! Mistakes in descriptions as they are told, and what a file is taken for by its content.

use std::path::Path;
use tool::text::content::{content, Content};
use tool::text::parse;
use tool::text::told::told;

fn all_told(text: &str) -> String {
    told("F", text, &parse(text).expect_err("a mistake"))
}

#[test]
fn the_wrong_ones_have_their_messages() {
    let mut count = 0;
    for entry in std::fs::read_dir(Path::new(env!("CARGO_MANIFEST_DIR")).join("../../sheets/wrong")).unwrap() {
        let path = entry.unwrap().path();
        if path.extension().is_some_and(|extension| extension == "txt") {
            let Content::Text(text) = content(&std::fs::read(&path).unwrap()) else { panic!("{} is no text", path.display()) };
            let told = all_told(&text);
            let found: Vec<_> = told.lines().filter_map(|line| line.strip_prefix("F:")).collect();
            let messages: Vec<_> = text.lines().filter_map(|line| line.strip_prefix("# message: ")).collect();
            assert_eq!(found, messages, "{}", path.display());
            count += 1;
        }
    }
    assert!(count > 100, "{count} files");
}

#[test]
fn what_is_wrong_is_marked() {
    let text = "clocks x\n\nlocation a\n  x <= 2\n\n\nedge leave: a -> cellar\n";
    let expected = "F:7: 'cellar' is no location; expected one of: a\n  7 | edge leave: a -> cellar\n    |                  ^^^^^^";
    assert_eq!(all_told(text), expected);
}

#[test]
fn marks_stand_below_behind_tabs_and_letters() {
    let told = all_told("clocks x\nlocation a\n\tx\u{b}<=\t13 # größer\n");
    assert!(told.ends_with("\n  3 |  x <= 13 # größer\n    |       ^^"), "{told}");
    let told = all_told("clocks x\nlocation größe\n");
    assert!(told.ends_with("\n  2 | location größe\n    |          ^^^^^"), "{told}");
}

#[test]
fn a_wide_line_is_cut() {
    let (before, behind) = (" ".repeat(200), "#".repeat(300));
    let told = all_told(&format!("clocks x\nlocation a\n{before}x <= 13 {behind}\n"));
    let lines: Vec<_> = told.lines().collect();
    let shown = format!("  3 | ...{}x <= 13 {}...", " ".repeat(55), "#".repeat(57));
    assert_eq!(lines[1..], [shown.as_str(), &format!("    | {}^^", " ".repeat(63))]);
    let long = format!("clocks {}", "x ".repeat(500));
    assert!(all_told(&long).lines().all(|line| line.chars().count() < 140));
}

#[test]
fn control_characters_are_not_shown() {
    let text = "clocks x\nlocation a\n  x <= 2 \u{1b}[31m\u{202e} # \u{7}\n";
    let told = told("a\u{1b}b\n", text, &parse(text).expect_err("a mistake"));
    let message = "a\u{fffd}b :3: the character U+001B means nothing here; expected names, whole numbers, and the signs < <= > >= = -> : ,";
    assert_eq!(told, format!("{message}\n  3 |   x <= 2 \u{fffd}[31m\u{fffd} # \u{fffd}\n    |          ^"));
}

#[test]
fn the_end_is_its_last_line() {
    assert_eq!(all_told(""), "F:1: the description ends without clocks; expected a line like: clocks x y");
    let told = all_told("clocks x\n\n");
    assert!(told.starts_with("F:2: the description ends without a location;") && told.ends_with("\n  2 |\n    | ^"), "{told}");
}

#[test]
fn as_many_as_ten_are_told() {
    let wrong = |count: usize| format!("clocks x\nlocation a\n  x <= 2\n{}", "  cost 0\n".repeat(count));
    let last = |count: usize| all_told(&wrong(count)).lines().last().map(str::to_string);
    assert_eq!(all_told(&wrong(10)).lines().count(), 30);
    assert_eq!(last(11), Some("F: 1 more mistake".to_string()));
    assert_eq!(last(15), Some("F: 5 more mistakes".to_string()));
}

const PLAIN: &str = "# ein größeres Maß\nclocks x\nlocation a\n  x <= 2\n";

#[test]
fn a_text_is_taken_for_text() {
    let text = |bytes: &[u8]| content(bytes) == Content::Text(PLAIN.to_string());
    assert!(text(PLAIN.as_bytes()));
    assert!(text(format!("\u{feff}{PLAIN}").as_bytes()));
    assert!(text(PLAIN.replace('\n', "\r\n").as_bytes()));
    assert!(text(PLAIN.replace('\n', "\r").as_bytes()));
    assert_eq!(content(b""), Content::Text(String::new()));
    assert_eq!(content(b"\x0cclocks\x0bx"), Content::Text("\x0cclocks\x0bx".to_string()));
}

#[test]
fn bytes_are_taken_for_bytes() {
    for edition in 0..=8 {
        assert_eq!(content(&[edition]), Content::Bytes, "{edition}");
        assert_eq!(content(&[edition, b'c', b'l', b'o', b'c', b'k', b's']), Content::Bytes, "{edition}");
    }
    // as UTF-16, with the low byte first, these would be letters
    assert_eq!(content(&[1, 1, 1, 1, 5, 1, 0, 5]), Content::Bytes);
    assert_eq!(content(b"\x1f\x8b\x08"), Content::Bytes);
    assert_eq!(content(b"\x89PNG\r\n\x1a\n"), Content::Bytes);
}

#[test]
fn a_control_character_in_a_text_is_told_with_its_line() {
    let lines = ["clocks x", "location a", "  x <= 2"];
    for (character, name) in [("\0", "U+0000"), ("\x1a", "U+001A"), ("\x1b", "U+001B"), ("\x07", "U+0007")] {
        for (i, line) in lines.iter().enumerate() {
            let text = lines.join("\n").replace(line, &format!("{line}{character}"));
            let Content::Text(text) = content(text.as_bytes()) else { panic!("it is a text") };
            let mistakes = parse(&text).expect_err("a mistake");
            assert_eq!(mistakes[0].line, i + 1, "{name} on line {}", i + 1);
            assert!(mistakes[0].to_string().contains(name), "{}", mistakes[0]);
        }
    }
}

#[test]
fn long_names_and_numbers_are_told_and_not_repeated() {
    let name = "n".repeat(65);
    for text in [
        format!("clocks {name}\n"),
        format!("clocks x\nlocation {name}\n"),
        format!("clocks x\nlocation a\n  x <= 2\n  cost {}\n", "1".repeat(65)),
    ] {
        let mistakes = parse(&text).expect_err("a mistake");
        assert!(mistakes[0].to_string().contains(" of 65 "), "{}", mistakes[0]);
        assert!(mistakes.iter().all(|mistake| mistake.to_string().len() < 200));
    }
    assert!(parse(&format!("clocks x\nlocation {}\n  x <= 2\n", "n".repeat(64))).is_ok());
}

#[test]
fn a_text_of_mistakes_is_not_read_to_its_end() {
    let mistakes = parse(&"q\n".repeat(400_000)).expect_err("mistakes");
    assert_eq!(mistakes.len(), 1000);
    assert!(told("F", "", &mistakes).ends_with("\nF: 990 more mistakes at least"));
}

fn named(bytes: &[u8]) -> String {
    match content(bytes) {
        Content::Wrong(mistake, _) => told("F", "", &[mistake]),
        other => panic!("{other:?}"),
    }
}

#[test]
fn wide_encodings_are_named() {
    for mark in ["", "\u{feff}"] {
        let text = format!("{mark}{PLAIN}");
        let bytes16 = |write: fn(u16) -> [u8; 2]| text.encode_utf16().flat_map(write).collect::<Vec<_>>();
        let bytes32 = |write: fn(u32) -> [u8; 4]| text.chars().flat_map(|c| write(c.into())).collect::<Vec<_>>();
        assert_eq!(named(&bytes16(u16::to_le_bytes)), "F:1: the file is UTF-16, low byte first; expected UTF-8");
        assert_eq!(named(&bytes16(u16::to_be_bytes)), "F:1: the file is UTF-16, high byte first; expected UTF-8");
        assert_eq!(named(&bytes32(u32::to_le_bytes)), "F:1: the file is UTF-32, low byte first; expected UTF-8");
        assert_eq!(named(&bytes32(u32::to_be_bytes)), "F:1: the file is UTF-32, high byte first; expected UTF-8");
    }
}

#[test]
fn single_bytes_are_named() {
    let latin = |text: &str| text.chars().map(|c| c as u8).collect::<Vec<_>>();
    assert_eq!(named(&latin(PLAIN)), "F:1: byte 0xf6 is no UTF-8, and 'ö' in Latin-1; expected UTF-8");
    assert_eq!(named(b"clocks x\r\rcost 5\x80"), "F:3: byte 0x80 is no UTF-8, and '€' in Windows-1252; expected UTF-8");
    assert_eq!(named(b"clocks\xa0x"), "F:1: byte 0xa0 is no UTF-8, and the character U+00A0 in Latin-1; expected UTF-8");
    assert_eq!(named(b"clocks\n\x81"), "F:2: byte 0x81 is no UTF-8; expected UTF-8");
    let Content::Wrong(mistake, _) = content(&["\u{feff}# a\r\n# größe ".as_bytes(), b"\xfc"].concat()) else { panic!("it is no UTF-8") };
    assert_eq!((mistake.line, mistake.fault.place.column), (2, 9));
}
