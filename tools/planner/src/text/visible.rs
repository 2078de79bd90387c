//! Characters of a file as they may be shown on a terminal.

/// White space as a space; a control character, or one that turns the direction of what follows or has no width, as U+FFFD.
pub fn visible(c: char) -> char {
    match c {
        _ if c.is_whitespace() => ' ',
        '\u{ad}' | '\u{61c}' | '\u{200b}'..='\u{200f}' | '\u{202a}'..='\u{202e}' | '\u{2060}'..='\u{206f}' | '\u{feff}' => '\u{fffd}',
        _ if c.is_control() => '\u{fffd}',
        _ => c,
    }
}

/// A character in a message, by its number where it cannot be shown.
pub fn named(c: char) -> String {
    if visible(c) == c {
        format!("'{c}'")
    } else {
        format!("the character U+{:04X}", u32::from(c))
    }
}
