//! A sheet with the name of the file that it came from.

use crate::sheet::Sheet;

#[derive(Clone, Debug)]
pub struct Source {
    /// As the user gave it; "-" is standard input.
    pub name: String,
    pub sheet: Sheet,
    pub bytes: Vec<u8>,
}
