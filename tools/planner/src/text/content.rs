//! What a file holds, told by its content.

use super::encodings::{plain, single_bytes, wide};
use super::Mistake;

#[derive(Debug, PartialEq, Eq)]
pub enum Content {
    /// The bytes of a sheet, in order or not.
    Bytes,
    /// A description, without its byte order mark and with every line end as LF.
    Text(String),
    /// A text in an encoding that is not read, and as much of it as can be shown.
    Wrong(Mistake, String),
}

/// A sheet begins with its edition, which is no letter; a text does not begin with a control character, and is UTF-8.
pub fn content(bytes: &[u8]) -> Content {
    if bytes.first().is_some_and(|first| *first > 0 && !plain(char::from(*first)) && first.is_ascii()) {
        return Content::Bytes;
    }
    if let Some(mistake) = wide(bytes) {
        return Content::Wrong(mistake, String::new());
    }
    let body = bytes.strip_prefix(b"\xef\xbb\xbf").unwrap_or(bytes);
    let controls = body.iter().any(|byte| byte.is_ascii() && !plain(char::from(*byte)));
    let letters = body.first().is_none_or(|first| first.is_ascii() && plain(char::from(*first)));
    match std::str::from_utf8(body) {
        _ if body.first() == Some(&0) => Content::Bytes,
        Ok(text) => Content::Text(line_ends(text)),
        Err(_) if controls && !letters => Content::Bytes,
        Err(error) => Content::Wrong(single_bytes(body, error.valid_up_to()), line_ends(&String::from_utf8_lossy(body))),
    }
}

/// CR LF and CR as LF.
pub(super) fn line_ends(text: &str) -> String {
    text.replace("\r\n", "\n").replace('\r', "\n")
}
