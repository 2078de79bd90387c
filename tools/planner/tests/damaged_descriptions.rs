//! Seeded damage to good descriptions: each mistake stands in its line, what is told can be shown, and one slip gives few mistakes.

mod common;

use common::Dice;
use std::path::Path;
use tool::sheet::{decode::decode, encode::encode};
use tool::text::parse;
use tool::text::told::told;

impl Dice {
    fn place(&mut self, n: usize) -> usize {
        self.below(n.max(1) as u64) as usize
    }

    fn one<'a>(&mut self, from: &[&'a str]) -> &'a str {
        from[self.place(from.len())]
    }
}

/// The descriptions of sheets/, without their comments.
fn good() -> Vec<String> {
    let folder = Path::new(env!("CARGO_MANIFEST_DIR")).join("../../sheets");
    let mut paths: Vec<_> = std::fs::read_dir(folder).unwrap().map(|entry| entry.unwrap().path()).collect();
    paths.retain(|path| path.extension().is_some_and(|extension| extension == "txt"));
    paths.sort();
    let texts = paths.iter().map(|path| std::fs::read_to_string(path).unwrap());
    let bare = |text: String| text.lines().filter(|line| !line.starts_with('#')).map(|line| format!("{line}\n")).collect();
    texts.map(bare).inspect(|text: &String| assert!(parse(text).is_ok(), "{text}")).collect()
}

/// How many mistakes; each is to stand in its line, in order, and what is told to be fit for a terminal.
fn mistakes(text: &str) -> usize {
    let mistakes = match parse(text) {
        Ok(sheet) => {
            assert!(decode(&encode(&sheet)).is_ok(), "accepted, and no sheet:\n{text}");
            return 0;
        }
        Err(mistakes) => mistakes,
    };
    assert!(mistakes.windows(2).all(|pair| pair[0].line <= pair[1].line), "not in order:\n{text}");
    for mistake in &mistakes {
        let line = text.lines().nth(mistake.line - 1).unwrap_or("");
        let (place, length) = (mistake.fault.place, line.chars().count());
        assert!(place.column >= 1 && place.width >= 1 && place.column + place.width <= length + 2, "{mistake:?} in {line:?}");
    }
    let told = told("F", text, &mistakes);
    assert!(told.chars().all(|c| !c.is_control() || c == '\n'), "{told:?}");
    let more = usize::from(mistakes.len() > 10);
    assert_eq!(told.lines().filter(|line| line.starts_with("F:")).count(), mistakes.len().min(10) + more, "{told}");
    mistakes.len()
}

const STRANGE: [&str; 24] = [
    "", " ", "#", "$", "-", ">", "<", "=", ",", ":", ".", "0", "9", "x", "q", "Z", "ü", "≤", "−", "\t", "\r", "\u{1b}", "\u{0}", "\u{202e}",
];

/// One character dropped, doubled or replaced.
fn slip(dice: &mut Dice, text: &str) -> String {
    let mut parts: Vec<_> = text.chars().map(String::from).collect();
    let at = dice.place(parts.len());
    parts[at] = if dice.place(4) == 0 { parts[at].repeat(2) } else { dice.one(&STRANGE).to_string() };
    parts.concat()
}

/// One line or one word dropped, doubled, or replaced by another of the text.
fn shift(dice: &mut Dice, text: &str, separators: &[char]) -> String {
    let parts: Vec<_> = text.split_inclusive(separators).collect();
    let (at, other) = (dice.place(parts.len()), dice.place(parts.len()));
    let instead = [String::new(), parts[at].repeat(2), parts[other].to_string()];
    [parts[..at].concat(), instead[dice.place(3)].clone(), parts[at + 1..].concat()].concat()
}

#[test]
fn one_slip_gives_few_mistakes() {
    let (mut dice, texts) = (Dice(1), good());
    let (mut wrong, mut told) = (0, 0);
    for turn in 0..3000 {
        let found = mistakes(&slip(&mut dice, &texts[turn % texts.len()]));
        (wrong, told) = (wrong + usize::from(found > 0), told + found);
    }
    assert!(wrong > 1000, "{wrong} wrong");
    assert!(10 * told < 11 * wrong, "{told} mistakes in {wrong}");
}

#[test]
fn one_line_or_word_gives_few_mistakes() {
    let (mut dice, texts) = (Dice(2), good());
    let (mut wrong, mut told) = (0, 0);
    for turn in 0..3000 {
        let separators: &[char] = if turn % 2 == 0 { &['\n'] } else { &[' ', '\n'] };
        let found = mistakes(&shift(&mut dice, &texts[turn / 2 % texts.len()], separators));
        (wrong, told) = (wrong + usize::from(found > 0), told + found);
    }
    assert!(wrong > 1000, "{wrong} wrong");
    assert!(10 * told < 12 * wrong, "{told} mistakes in {wrong}");
}

#[test]
fn much_damage_is_told_too() {
    let (mut dice, texts) = (Dice(3), good());
    let mut many = 0;
    for turn in 0..1000 {
        let mut text = texts[turn % texts.len()].clone();
        for _ in 0..30 {
            text = slip(&mut dice, &text);
        }
        many += usize::from(mistakes(&text) > 10);
    }
    assert!(many > 100, "{many} with more than ten mistakes");
}

/// Each keyword with a letter dropped, doubled, replaced or swapped with the next, and in capitals.
fn misspelt(word: &str) -> Vec<String> {
    let mut found = vec![word.to_uppercase()];
    for at in 0..word.len() {
        let (before, letter, after) = (&word[..at], &word[at..at + 1], &word[at + 1..]);
        found.extend([format!("{before}{after}"), format!("{before}{letter}{letter}{after}"), format!("{before}q{after}")]);
        found.push(after.get(..1).map_or(String::new(), |next| format!("{before}{next}{letter}{}", &after[1..])));
    }
    found.retain(|other| other != word && !other.is_empty());
    found
}

#[test]
fn a_misspelt_keyword_is_one_mistake() {
    let keywords = ["clocks", "location", "edge", "cost", "reward", "when", "reset"];
    let mut count = 0;
    for text in good() {
        let lines: Vec<_> = text.lines().collect();
        for (at, line) in lines.iter().enumerate() {
            let Some(word) = keywords.iter().find(|word| line.trim_start().split(' ').next() == Some(word)) else { continue };
            for other in misspelt(word) {
                let damaged = line.replacen(word, &other, 1);
                let text = [&lines[..at], &[damaged.as_str()], &lines[at + 1..]].concat().join("\n");
                let found = parse(&text).expect_err(&damaged);
                assert_eq!((found.len(), found[0].line), (1, at + 1), "{damaged}: {found:?}");
                assert_eq!(found[0].fault.hint.as_deref(), Some(format!("'{word}'").as_str()), "{damaged}");
                count += 1;
            }
        }
    }
    assert!(count > 1000, "{count} words");
}
