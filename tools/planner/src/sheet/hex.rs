//! Bytes as hexadecimal digits.

use crate::text::fault::{Fault, Place};
use crate::text::{visible::named, Mistake};

pub fn to_hex(bytes: &[u8]) -> String {
    bytes.iter().map(|byte| format!("{byte:02x}")).collect()
}

/// White space between digits means nothing.
pub fn from_hex(text: &str) -> Result<Vec<u8>, Mistake> {
    let mut digits = Vec::new();
    let mut last = 1;
    for (i, line) in text.lines().enumerate() {
        last = i + 1;
        for (column, c) in line.chars().enumerate().filter(|(_, c)| !c.is_whitespace()) {
            let Some(value) = c.to_digit(16) else {
                let place = Place { column: column + 1, width: 1 };
                let what = format!("{} is no hexadecimal digit", named(c));
                return Err(Mistake { line: last, fault: Fault::new(place, what, "0 to 9 and a to f") });
            };
            digits.push(value as u8);
        }
    }
    if digits.len() % 2 == 1 {
        let what = format!("{} hexadecimal digits", digits.len());
        return Err(Mistake { line: last, fault: Fault::new(Place::default(), what, "an even number") });
    }
    Ok(digits.chunks(2).map(|pair| pair[0] * 16 + pair[1]).collect())
}
