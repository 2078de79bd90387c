//! Encodings of texts that are not read, so that they can be named.

use super::content::line_ends;
use super::fault::{Fault, Place};
use super::visible::named;
use super::Mistake;

/// The letters of Windows-1252 at 0x80 to 0x9f, where Latin-1 has none.
const WINDOWS: &str = "€\u{81}‚ƒ„…†‡ˆ‰Š‹Œ\u{8d}Ž\u{8f}\u{90}‘’“”•–—˜™š›œ\u{9d}žŸ";

/// No control character but white space.
pub(super) fn plain(c: char) -> bool {
    !c.is_control() || c.is_whitespace()
}

fn pairs(bytes: &[u8], read: fn([u8; 2]) -> u16) -> Option<String> {
    let units = bytes.chunks_exact(2).map(|pair| read([pair[0], pair[1]]));
    char::decode_utf16(units).map(|found| found.ok()).collect()
}

fn fours(bytes: &[u8], read: fn([u8; 4]) -> u32) -> Option<String> {
    bytes.chunks_exact(4).map(|four| char::from_u32(read([four[0], four[1], four[2], four[3]]))).collect()
}

type Decode = fn(&[u8]) -> Option<String>;

/// Encodings of more bytes a letter, each with its byte order mark.
const WIDE: [(&str, &[u8], Decode); 4] = [
    ("UTF-32, low byte first", &[0xff, 0xfe, 0, 0], |bytes| fours(bytes, u32::from_le_bytes)),
    ("UTF-32, high byte first", &[0, 0, 0xfe, 0xff], |bytes| fours(bytes, u32::from_be_bytes)),
    ("UTF-16, low byte first", &[0xff, 0xfe], |bytes| pairs(bytes, u16::from_le_bytes)),
    ("UTF-16, high byte first", &[0xfe, 0xff], |bytes| pairs(bytes, u16::from_be_bytes)),
];

/// Whether the bytes are a text so encoded: with the mark, or without it and then with letters of ASCII for the most part.
fn encoded(bytes: &[u8], mark: &[u8], decode: Decode) -> bool {
    let body = bytes.strip_prefix(mark);
    let Some(text) = decode(body.unwrap_or(bytes)) else { return false };
    let ascii = text.chars().filter(char::is_ascii).count();
    text.chars().all(plain) && (body.is_some() || 2 * ascii > text.chars().count())
}

/// Names UTF-16 and UTF-32.
pub(super) fn wide(bytes: &[u8]) -> Option<Mistake> {
    let (name, _, _) = WIDE.into_iter().find(|(_, mark, decode)| encoded(bytes, mark, *decode))?;
    Some(Mistake { line: 1, fault: Fault::new(Place::default(), format!("the file is {name}"), "UTF-8") })
}

/// Names the first byte that is no UTF-8, by its letter in an encoding of one byte a letter.
pub(super) fn single_bytes(bytes: &[u8], at: usize) -> Mistake {
    let byte = bytes[at];
    let before = line_ends(&String::from_utf8_lossy(&bytes[..at]));
    let letter = match byte {
        0xa0.. => format!(", and {} in Latin-1", named(char::from(byte))),
        _ => match WINDOWS.chars().nth(usize::from(byte).saturating_sub(0x80)).filter(|c| plain(*c)) {
            Some(letter) => format!(", and '{letter}' in Windows-1252"),
            None => String::new(),
        },
    };
    let line = before.split('\n').count();
    let column = 1 + before.rsplit('\n').next().map_or(0, |line| line.chars().count());
    Mistake { line, fault: Fault::new(Place { column, width: 1 }, format!("byte 0x{byte:02x} is no UTF-8{letter}"), "UTF-8") }
}
