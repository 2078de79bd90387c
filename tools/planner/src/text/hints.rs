//! What a wrong spelling may have meant.

use super::WORDS;

/// Signs of other languages and keyboards, each with those that may be meant; a test without any is not in the format.
/// A longer one stands before its beginning.
const FOREIGN: [(&str, &[&str]); 23] = [
    ("-->", &["->"]),
    ("- >", &["->"]),
    ("–>", &["->"]),
    ("—>", &["->"]),
    ("−>", &["->"]),
    ("→", &["->"]),
    ("⇒", &["->"]),
    ("=>", &[">=", "->"]),
    ("=<", &["<="]),
    ("==", &["="]),
    ("< =", &["<="]),
    ("> =", &[">="]),
    ("≤", &["<="]),
    ("≥", &[">="]),
    ("⩽", &["<="]),
    ("⩾", &[">="]),
    ("<>", &[]),
    ("!=", &[]),
    ("≠", &[]),
    ("&&", &[","]),
    ("&", &[","]),
    (";", &[","]),
    ("-", &["->"]),
];

/// What is right elsewhere and wrong here.
const ELSEWHERE: [(&str, &[&str]); 4] = [(">", &["->"]), ("to", &["->"]), ("and", &[","]), ("is", &["="])];

/// Other words for those of the format.
const OTHER_WORDS: [(&str, &str); 14] = [
    ("guard", "when"),
    ("guards", "when"),
    ("if", "when"),
    ("where", "when"),
    ("loc", "location"),
    ("state", "location"),
    ("node", "location"),
    ("transition", "edge"),
    ("arc", "edge"),
    ("from", "edge"),
    ("earns", "reward"),
    ("gain", "reward"),
    ("timer", "clocks"),
    ("timers", "clocks"),
];

/// What stands before the digits of a number and is no '-', and what to write for it.
const BEFORE_DIGITS: [(&str, &str); 5] = [("−", "-"), ("–", "-"), ("—", "-"), ("- ", "-"), ("+", "")];

/// The sign of another language that the text begins with.
pub fn foreign(text: &str) -> Option<&'static str> {
    FOREIGN.iter().map(|(spelt, _)| *spelt).find(|spelt| text.starts_with(spelt))
}

/// Whether a sign of another language is a test that the format does not have.
pub fn no_test(spelt: &str) -> bool {
    FOREIGN.iter().any(|(sign, meant)| *sign == spelt && meant.is_empty())
}

/// The first sign that may be meant and is one of these.
pub fn sign(spelt: &str, signs: &[&str]) -> Option<&'static str> {
    let (_, meant) = FOREIGN.iter().chain(&ELSEWHERE).find(|(sign, _)| *sign == spelt)?;
    meant.iter().copied().find(|sign| signs.contains(sign))
}

/// The wrong sign before digits that the text begins with, and what to write for it.
pub fn before_digits(text: &str) -> Option<(&'static str, &'static str)> {
    BEFORE_DIGITS.into_iter().find(|(spelt, _)| text.strip_prefix(spelt).is_some_and(|rest| rest.starts_with(|c: char| c.is_ascii_digit())))
}

/// What is expected for digits with '.' or ',' between them, and what they may be meant for: the number that they make together
/// where they stand in groups of three, or else the numbers around it.
pub fn whole(spelt: &str) -> (&'static str, Option<String>) {
    let parts: Vec<_> = spelt.split(['.', ',']).collect();
    if parts.iter().skip(1).all(|part| part.len() == 3) {
        return ("digits with nothing between them", Some(format!("'{}'", parts.concat())));
    }
    let near: Option<i64> = parts.first().filter(|_| parts.len() == 2).and_then(|part| part.parse().ok());
    let far = near.and_then(|near| near.checked_add(if spelt.starts_with('-') { -1 } else { 1 }));
    let hint = near.zip(far).map(|(near, far)| format!("'{near}' or '{far}'"));
    ("a whole number: a smaller unit of time or money makes numbers whole", hint)
}

/// The word of the format or the name of a clock that a word may be meant for.
pub fn word<'a>(spelt: &str, clocks: &'a [String]) -> Option<&'a str> {
    let other = OTHER_WORDS.iter().find(|(word, _)| spelt.eq_ignore_ascii_case(word)).map(|(_, meant)| *meant);
    other.or_else(|| nearest(spelt, WORDS.into_iter().chain(clocks.iter().map(String::as_str))))
}

/// The word that a line before the clocks may be meant to begin with.
pub fn first_word(spelt: &str) -> Option<&'static str> {
    nearest(spelt, ["edition"].into_iter()).or(word(spelt, &[]).filter(|meant| *meant == "clocks"))
}

/// The name that is nearest, at most two slips away and by less than half of the word; the first of several. Words and names have at most
/// 64 letters (`tokens.rs`), so that comparing them takes little.
pub fn nearest<'a>(spelt: &str, names: impl Iterator<Item = &'a str>) -> Option<&'a str> {
    let close = |slips: usize| slips <= 2 && 2 * slips < spelt.len();
    let near = names.map(|name| (slips(spelt, name), name)).filter(|(slips, _)| close(*slips));
    near.min_by_key(|(slips, _)| *slips).map(|(_, name)| name)
}

/// How many letters are to be put in, left out, altered or swapped with the next, whatever their case.
fn slips(from: &str, to: &str) -> usize {
    let (from, to) = (from.to_ascii_lowercase().into_bytes(), to.to_ascii_lowercase().into_bytes());
    let mut table = vec![(0..=to.len()).collect::<Vec<usize>>()];
    for i in 1..=from.len() {
        let mut row = vec![i];
        for j in 1..=to.len() {
            let altered = table[i - 1][j - 1] + usize::from(from[i - 1] != to[j - 1]);
            let mut least = altered.min(table[i - 1][j] + 1).min(row[j - 1] + 1);
            if i > 1 && j > 1 && from[i - 1] == to[j - 2] && from[i - 2] == to[j - 1] {
                least = least.min(table[i - 2][j - 2] + 1);
            }
            row.push(least);
        }
        table.push(row);
    }
    table[from.len()][to.len()]
}

#[cfg(test)]
mod tests {
    use super::{nearest, slips, whole};

    #[test]
    fn slips_are_counted() {
        let found =
            [("work", "work"), ("Work", "wORK"), ("wrok", "work"), ("wok", "work"), ("woork", "work"), ("wark", "work"), ("", "work")];
        assert_eq!(found.map(|(from, to)| slips(from, to)), [0, 0, 1, 1, 1, 1, 4]);
    }

    #[test]
    fn the_nearest_is_near() {
        let of = |spelt, names: &[&'static str]| nearest(spelt, names.iter().copied());
        assert_eq!(of("serving-c", &["idle", "serving-a", "serving-b"]), Some("serving-a"));
        assert_eq!(of("wrkng", &["worker", "working"]), Some("working"));
        assert_eq!([of("ab", &["ax"]), of("abc", &["abx"]), of("abcd", &["abxy"])], [None, Some("abx"), None]);
        assert_eq!([of("abcde", &["abcxy"]), of("abcdefgh", &["abcdexyz"])], [Some("abcxy"), None]);
        assert_eq!(of("X", &["y", "x"]), Some("x"));
    }

    #[test]
    fn whole_numbers_are_found() {
        let hint = |spelt| whole(spelt).1.unwrap_or_default();
        assert_eq!([hint("0.5"), hint("-1,5"), hint("-0.5")], ["'0' or '1'", "'-1' or '-2'", "'0' or '-1'"]);
        assert_eq!([hint("1.000"), hint("1,000,000"), hint("1.2.3"), hint("99999999999999999999.5")], ["'1000'", "'1000000'", "", ""]);
    }
}
