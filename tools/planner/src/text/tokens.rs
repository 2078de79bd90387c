//! A line of a description as names, numbers and signs, each with its place.

use super::fault::{Fault, Place};
use super::hints;
use super::visible::named;

#[derive(Clone, Debug, PartialEq, Eq)]
pub enum Kind {
    Name(String),
    Number(i64),
    Sign(&'static str),
    /// A sign that the format does not have.
    Foreign(&'static str),
    /// What is none of these, told by the one who comes to it.
    Unread(Fault),
}

#[derive(Clone, Debug, PartialEq, Eq)]
pub struct Token {
    pub kind: Kind,
    pub place: Place,
}

impl std::fmt::Display for Kind {
    fn fmt(&self, f: &mut std::fmt::Formatter) -> std::fmt::Result {
        match self {
            Kind::Name(name) => write!(f, "'{name}'"),
            Kind::Number(number) => write!(f, "{number}"),
            Kind::Sign(sign) | Kind::Foreign(sign) => write!(f, "'{sign}'"),
            Kind::Unread(fault) => write!(f, "{}", fault.what),
        }
    }
}

/// The longer ones first.
const SIGNS: [&str; 8] = ["->", "<=", ">=", "<", ">", "=", ",", ":"];

/// Letters of any language with the marks above and below them, digits, '_' and '-'.
fn word_length(text: &str) -> usize {
    let part = |c: char| c.is_alphanumeric() || c == '_' || c == '-' || ('\u{300}'..='\u{36f}').contains(&c);
    let end = text.find(|c| !part(c)).unwrap_or(text.len());
    // in "a->b" the '-' belongs to the arrow
    if text[..end].ends_with('-') && text[end..].starts_with('>') {
        end - 1
    } else {
        end
    }
}

/// How many characters a name may have; longer ones would make tables and pictures too wide.
const LONGEST_NAME: usize = 64;

/// A name starts with a letter and goes on with letters, digits, '_' and '-', all of ASCII.
fn name(word: &str, place: Place) -> Kind {
    let length = word.chars().count();
    if length > LONGEST_NAME {
        let what = format!("a name of {length} characters");
        return Kind::Unread(Fault::new(place, what, format!("at most {LONGEST_NAME}")));
    }
    match word.is_ascii() {
        true => Kind::Name(word.to_string()),
        false => Kind::Unread(Fault::new(
            place,
            format!("'{word}' has letters that no name may have"),
            "a letter a to z or A to Z, then such letters, digits, '_' and '-'",
        )),
    }
}

fn digits(text: &str) -> usize {
    text.find(|c: char| !c.is_ascii_digit()).unwrap_or(text.len())
}

/// Digits with '-' before them, and with '.' or ',' and more digits behind them.
fn number_length(text: &str) -> usize {
    let sign = usize::from(text.starts_with('-'));
    let mut end = sign + digits(&text[sign..]);
    if end == sign {
        return 0;
    }
    while text[end..].starts_with(['.', ',']) && digits(&text[end + 1..]) > 0 {
        end += 1 + digits(&text[end + 1..]);
    }
    end
}

fn number(spelt: &str, place: Place) -> Kind {
    if spelt.len() > LONGEST_NAME {
        let what = format!("a number of {} digits", spelt.len());
        return Kind::Unread(Fault::new(place, what, "a whole number from -10000 to 10000"));
    }
    if spelt.contains(['.', ',']) {
        let (expected, hint) = hints::whole(spelt);
        return Kind::Unread(Fault { hint, ..Fault::new(place, format!("{spelt} is no whole number"), expected) });
    }
    match spelt.parse() {
        Ok(number) => Kind::Number(number),
        Err(_) => {
            let what = format!("number {spelt} has too many digits");
            Kind::Unread(Fault::new(place, what, "a whole number from -10000 to 10000"))
        }
    }
}

fn signed(spelt: &str, meant: &str, place: Place) -> Kind {
    let fault = Fault::new(place, format!("'{spelt}' is no whole number"), "'-' before a number below 0, and no sign before others");
    Kind::Unread(fault.meant(Some(meant)))
}

fn strange(c: char, place: Place) -> Kind {
    let expected = "names, whole numbers, and the signs < <= > >= = -> : ,";
    Kind::Unread(Fault::new(place, format!("{} means nothing here", named(c)), expected))
}

/// The token that the text begins with and its length in bytes; the text begins at the column.
fn token(text: &str, column: usize) -> (Token, usize) {
    let first = text.chars().next().unwrap_or(' ');
    let place = |length: usize| Place { column, width: text[..length].chars().count().max(1) };
    let give = |length: usize, kind: Kind| (Token { kind, place: place(length) }, length);
    if first.is_alphabetic() {
        let length = word_length(text);
        return give(length, name(&text[..length], place(length)));
    }
    let length = number_length(text);
    if length > 0 {
        return give(length, number(&text[..length], place(length)));
    }
    if let Some((spelt, meant)) = hints::before_digits(text) {
        let length = spelt.len() + number_length(&text[spelt.len()..]);
        return give(length, signed(&text[..length], &format!("{meant}{}", &text[spelt.len()..length]), place(length)));
    }
    let right = SIGNS.into_iter().find(|sign| text.starts_with(sign));
    match (right, hints::foreign(text)) {
        (right, Some(foreign)) if right.is_none_or(|sign| sign.len() < foreign.len()) => give(foreign.len(), Kind::Foreign(foreign)),
        (Some(sign), _) => give(sign.len(), Kind::Sign(sign)),
        (None, _) => give(first.len_utf8(), strange(first, place(first.len_utf8()))),
    }
}

/// The tokens of a line, without its comment; of those that cannot be read, the first.
pub fn tokens(line: &str) -> Vec<Token> {
    let mut rest = line.split('#').next().unwrap_or("");
    let (mut column, mut found, mut unread) = (1, Vec::new(), false);
    while !rest.trim_start().is_empty() {
        let text = rest.trim_start();
        column += rest[..rest.len() - text.len()].chars().count();
        let (next, length) = token(text, column);
        column += next.place.width;
        if !(unread && matches!(next.kind, Kind::Unread(_))) {
            unread |= matches!(next.kind, Kind::Unread(_));
            found.push(next);
        }
        rest = &text[length..];
    }
    found
}
